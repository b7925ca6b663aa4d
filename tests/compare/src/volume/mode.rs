//! File mode: answers the attribute, or sets it.

use super::answer::{answer, unless, Refusal};
use super::check::sound_volume;
use super::directory::{self, allowed, entries, entry_mut, find};
use super::names::stored;
use super::open_table::is_open;

pub fn mode(image: &mut [u8], table: &[u8], name: &[u8], function: u32, attribute: u32) -> u64 {
    answer(answered_or_set(image, table, name, function, attribute))
}

pub fn answered_or_set(
    image: &mut [u8],
    table: &[u8],
    name: &[u8],
    function: u32,
    attribute: u32,
) -> Result<u32, Refusal> {
    let volume = sound_volume(image)?;
    unless(function <= 1, Refusal::BadFunction)?;
    let name = stored(name)?;
    let entries = entries(volume.kind, image);
    let slot = find(entries, &name).ok_or(Refusal::NoSuchFile)?;
    if function == 0 {
        return Ok(u32::from(directory::attribute(&entries[slot])));
    }
    unless(allowed(attribute), Refusal::BadAttribute)?;
    unless(!is_open(table, slot), Refusal::FileOpen)?;
    entry_mut(volume.kind, image, slot)[11] = attribute as u8;
    Ok(0)
}
