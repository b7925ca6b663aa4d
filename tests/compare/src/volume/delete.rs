//! Delete: frees the chain and marks the slot erased.

use super::answer::{answer, unless, Refusal};
use super::chain::free;
use super::check::sound_volume;
use super::directory::{entries, entry_mut, find, is_read_only, start, ERASED};
use super::names::stored;
use super::open_table::is_open;

pub fn delete(image: &mut [u8], table: &[u8], name: &[u8]) -> u64 {
    answer(deleted(image, table, name))
}

pub fn deleted(image: &mut [u8], table: &[u8], name: &[u8]) -> Result<u32, Refusal> {
    let volume = sound_volume(image)?;
    let name = stored(name)?;
    let entries = entries(volume.kind, image);
    let slot = find(entries, &name).ok_or(Refusal::NoSuchFile)?;
    let entry = &entries[slot];
    unless(!is_open(table, slot), Refusal::FileOpen)?;
    unless(!is_read_only(entry), Refusal::ReadOnly)?;

    let start = start(entry);
    free(volume.kind, &volume.values, image, start);
    entry_mut(volume.kind, image, slot)[0] = ERASED;
    Ok(0)
}
