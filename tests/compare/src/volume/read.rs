//! Read: from the pointer, as many bytes as buffer and file allow.

use super::answer::{answer, unless, Refusal};
use super::chain::{chain, parts};
use super::check::sound_volume;
use super::directory::{entries, size, start};
use super::open_table::{live, store_pointer, WRITE};

pub fn read(image: &[u8], table: &mut [u8], handle: u32, buffer: &mut [u8]) -> u64 {
    answer(moved(image, table, handle, buffer))
}

pub fn moved(
    image: &[u8],
    table: &mut [u8],
    handle: u32,
    buffer: &mut [u8],
) -> Result<u32, Refusal> {
    let volume = sound_volume(image)?;
    let entries = entries(volume.kind, image);
    let open = live(entries, table, handle)?;
    unless(open.access != WRITE, Refusal::WrongAccess)?;

    let entry = &entries[open.slot];
    let from = open.pointer as usize;
    let count = (size(entry) as usize)
        .saturating_sub(from)
        .min(buffer.len());
    let chain = chain(volume.kind, &volume.values, start(entry));
    let mut done = 0;
    for part in parts(chain, from, from + count) {
        let length = part.len();
        buffer[done..done + length].copy_from_slice(&image[part]);
        done += length;
    }
    store_pointer(table, open.place, (from + count) as u32);
    Ok(count as u32)
}
