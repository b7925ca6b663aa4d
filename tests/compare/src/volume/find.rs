//! Find: the first plain file at or after a slot that matches a pattern.

use super::answer::{answer, Refusal};
use super::check::sound_volume;
use super::directory::{attribute, entries, is_plain_file, name, Entry, HIDDEN, SYSTEM};
use super::patterns::Pattern;

pub fn find(image: &[u8], pattern: &[u8], slot: u32, mask: u32) -> u64 {
    answer(found(image, pattern, slot, mask))
}

pub fn found(image: &[u8], pattern: &[u8], slot: u32, mask: u32) -> Result<u32, Refusal> {
    let volume = sound_volume(image)?;
    let pattern = Pattern::given(pattern)?;
    (0..)
        .zip(entries(volume.kind, image))
        .skip(slot as usize)
        .find(|(_, entry)| is_shown(entry, mask) && pattern.matches(name(entry)))
        .map(|(slot, _)| slot)
        .ok_or(Refusal::NoMoreFiles)
}

/// Whether a search with this mask shows the entry: a plain file whose hidden
/// and system bits are all in the mask.
fn is_shown(entry: &Entry, mask: u32) -> bool {
    let concealing = u32::from(attribute(entry) & (HIDDEN | SYSTEM));
    is_plain_file(entry) && concealing & !mask == 0
}
