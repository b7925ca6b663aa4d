//! Create: a new file, or one of that name emptied.

use super::answer::{answer, unless, Refusal};
use super::chain::free;
use super::check::{sound_volume, Sound};
use super::directory::{
    allowed, entries, entry_mut, find, is_plain_file, is_read_only, lowest_vacant, set_stamp,
    start, Entry, ENTRY,
};
use super::names::stored;
use super::open_table::{is_open, lowest_unused, store_open, BOTH};
use super::stamps::Stamp;

#[allow(clippy::too_many_arguments)]
pub fn create(
    image: &mut [u8],
    table: &mut [u8],
    name: &[u8],
    attribute: u32,
    hour: u32,
    minute: u32,
    step: u32,
    year: u32,
    month: u32,
    day: u32,
) -> u64 {
    let stamp = Stamp::from([hour, minute, step, year, month, day]);
    answer(created(image, table, name, attribute, stamp))
}

pub fn created(
    image: &mut [u8],
    table: &mut [u8],
    name: &[u8],
    attribute: u32,
    stamp: Stamp,
) -> Result<u32, Refusal> {
    let volume = sound_volume(image)?;
    let name = stored(name)?;
    let (time, date) = stamp.words()?;
    unless(allowed(attribute), Refusal::BadAttribute)?;
    let slot = slot_for(entries(volume.kind, image), table, &name)?;
    let place = lowest_unused(table)?;

    empty(&volume, image, slot);
    let mut fresh: Entry = [0; ENTRY];
    fresh[..11].copy_from_slice(&name);
    fresh[11] = attribute as u8;
    set_stamp(&mut fresh, time, date);
    *entry_mut(volume.kind, image, slot) = fresh;
    store_open(table, place, slot, BOTH);
    Ok(place as u32)
}

/// The slot of the file to be emptied, or one for a new file, or 5.
fn slot_for(entries: &[Entry], table: &[u8], name: &[u8; 11]) -> Result<usize, Refusal> {
    match find(entries, name) {
        Some(slot) => {
            unless(!is_open(table, slot), Refusal::FileOpen)?;
            unless(!is_read_only(&entries[slot]), Refusal::ReadOnly)?;
            Ok(slot)
        }
        None => lowest_vacant(entries).ok_or(Refusal::NoSlot),
    }
}

/// Frees the clusters of the file at the slot. A vacant slot holds none.
fn empty(volume: &Sound, image: &mut [u8], slot: usize) {
    let entry = &entries(volume.kind, image)[slot];
    if is_plain_file(entry) {
        let start = start(entry);
        free(volume.kind, &volume.values, image, start);
    }
}
