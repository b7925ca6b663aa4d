//! View: the image's own bytes of a file, up to the end of a cluster.

use std::ops::Range;

use super::answer::{answer, Refusal};
use super::chain::{chain, parts};
use super::check::sound_volume;
use super::directory::{entries, find, size, start};
use super::names::stored;

/// The part of the image from the file's byte `offset` to the end of its
/// cluster or of the file; empty past the end and on any refusal.
pub fn view<'a>(image: &'a [u8], name: &[u8], offset: u32) -> &'a [u8] {
    &image[viewed(image, name, offset).unwrap_or(0..0)]
}

/// The refusal number of a view on the same inputs, above the value 0.
pub fn view_number(image: &[u8], name: &[u8], offset: u32) -> u64 {
    answer(viewed(image, name, offset).map(|_| 0))
}

pub fn viewed(image: &[u8], name: &[u8], offset: u32) -> Result<Range<usize>, Refusal> {
    let volume = sound_volume(image)?;
    let name = stored(name)?;
    let entries = entries(volume.kind, image);
    let slot = find(entries, &name).ok_or(Refusal::NoSuchFile)?;
    let entry = &entries[slot];
    let chain = chain(volume.kind, &volume.values, start(entry));
    let first = parts(chain, offset as usize, size(entry) as usize).next();
    Ok(first.unwrap_or(0..0))
}
