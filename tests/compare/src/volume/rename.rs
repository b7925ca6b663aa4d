//! Rename: changes the 11 name bytes only.

use super::answer::{answer, unless, Refusal};
use super::check::sound_volume;
use super::directory::{entries, entry_mut, find, is_read_only};
use super::names::stored;
use super::open_table::is_open;

pub fn rename(image: &mut [u8], table: &[u8], old: &[u8], new: &[u8]) -> u64 {
    answer(renamed(image, table, old, new))
}

pub fn renamed(image: &mut [u8], table: &[u8], old: &[u8], new: &[u8]) -> Result<u32, Refusal> {
    let volume = sound_volume(image)?;
    let old = stored(old)?;
    let new = stored(new)?;
    let entries = entries(volume.kind, image);
    let slot = find(entries, &old).ok_or(Refusal::NoSuchFile)?;
    unless(!is_open(table, slot), Refusal::FileOpen)?;
    unless(!is_read_only(&entries[slot]), Refusal::ReadOnly)?;
    unless(find(entries, &new).is_none(), Refusal::NameTaken)?;

    entry_mut(volume.kind, image, slot)[..11].copy_from_slice(&new);
    Ok(0)
}
