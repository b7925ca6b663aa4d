//! Seek: moves one place's pointer and nothing else.

use super::answer::{answer, unless, Refusal};
use super::check::sound_volume;
use super::directory::{entries, size};
use super::open_table::{live, store_pointer};

pub fn seek(image: &[u8], table: &mut [u8], handle: u32, method: u32, offset: i32) -> u64 {
    answer(sought(image, table, handle, method, offset))
}

pub fn sought(
    image: &[u8],
    table: &mut [u8],
    handle: u32,
    method: u32,
    offset: i32,
) -> Result<u32, Refusal> {
    let volume = sound_volume(image)?;
    unless(method <= 2, Refusal::BadFunction)?;
    let entries = entries(volume.kind, image);
    let open = live(entries, table, handle)?;
    let base = match method {
        0 => 0,
        1 => open.pointer,
        _ => size(&entries[open.slot]),
    };
    let pointer = target(base, offset)?;
    store_pointer(table, open.place, pointer);
    Ok(pointer)
}

/// A signed offset from an unsigned base, or 1 where 32 bits don't hold it.
pub fn target(base: u32, offset: i32) -> Result<u32, Refusal> {
    base.checked_add_signed(offset).ok_or(Refusal::OutOfRange)
}
