//! Open: the lowest unused place for a file that is there.

use super::answer::{answer, unless, Refusal};
use super::check::sound_volume;
use super::directory::{entries, find, is_read_only};
use super::names::stored;
use super::open_table::{lowest_unused, store_open, BOTH, READ};

pub fn open(image: &[u8], table: &mut [u8], name: &[u8], access: u32) -> u64 {
    answer(opened(image, table, name, access))
}

pub fn opened(image: &[u8], table: &mut [u8], name: &[u8], access: u32) -> Result<u32, Refusal> {
    let volume = sound_volume(image)?;
    unless(access <= u32::from(BOTH), Refusal::BadAccess)?;
    let access = access as u8;
    let name = stored(name)?;
    let entries = entries(volume.kind, image);
    let slot = find(entries, &name).ok_or(Refusal::NoSuchFile)?;
    let writable = !is_read_only(&entries[slot]);
    unless(access == READ || writable, Refusal::ReadOnly)?;
    let place = lowest_unused(table)?;
    store_open(table, place, slot, access);
    Ok(place as u32)
}
