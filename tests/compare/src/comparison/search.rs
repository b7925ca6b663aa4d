//! A whole search against a list made by hand.
//!
//! The list comes from the entries alone, character by character, and shares
//! nothing with find.

use super::both::halves;
use crate::volume::answer::packed;
use crate::volume::kind::Kind;
use crate::volumes::calls::Call;
use crate::volumes::finds::Search;
use crate::volumes::root;

/// Find's refusal where nothing more matches.
const NO_MORE_FILES: u32 = 18;

/// Whether a search with this good pattern and mask must list a plain file of
/// this name and attribute.
pub fn lists(pattern: &[u8], mask: u32, name: &[u8], attribute: u8) -> bool {
    let is_kept_back = |bit| u32::from(attribute) & bit != 0 && mask & bit == 0;
    !is_kept_back(0x02) && !is_kept_back(0x04) && fits(pattern, name)
}

/// Whether a good pattern fits a stored name.
fn fits(pattern: &[u8], name: &[u8]) -> bool {
    let mut parts = pattern.split(|&byte| byte == b'.');
    let base = parts.next().unwrap_or(b"");
    let extension = parts.next().unwrap_or(b"");
    part_fits(base, &name[..8]) && part_fits(extension, &name[8..])
}

/// The first character against the first byte, then the rest against the rest.
fn part_fits(part: &[u8], bytes: &[u8]) -> bool {
    match (part, bytes) {
        ([b'*', ..], _) => true,
        ([], padding) => padding.iter().all(|&byte| byte == b' '),
        ([b'?', part @ ..], [_, bytes @ ..]) => part_fits(part, bytes),
        ([character, part @ ..], [byte, bytes @ ..]) => {
            character.to_ascii_uppercase() == *byte && part_fits(part, bytes)
        }
        (_, []) => false,
    }
}

/// The slots that a search of an image of this kind must list.
pub fn listed(search: &Search, kind: &Kind, image: &[u8]) -> Vec<u32> {
    let mut slots = Vec::new();
    for (slot, entry) in (0..).zip(root(kind, image).chunks_exact(32)) {
        let is_file = ![0x00, 0xE5].contains(&entry[0]) && entry[11] & 0x08 == 0;
        if is_file && lists(&search.pattern, search.mask, &entry[..11], entry[11]) {
            slots.push(slot);
        }
    }
    slots
}

/// Searches from slot 0 on, and from the slot after each answer. The answers
/// must be the listed slots in their order, and then no more files.
pub fn compare_search(
    search: &Search,
    listed: &[u32],
    mut make: impl FnMut(&Call) -> u64,
) -> Result<(), String> {
    let mut answers_from = |from, expected| match make(&search.find_from(from)) {
        answer if answer == expected => Ok(()),
        answer => Err(format!(
            "whole search, {}: {} expected, {} answered",
            search.find_from(from),
            halves(expected),
            halves(answer)
        )),
    };
    let mut from = 0;
    for &slot in listed {
        answers_from(from, packed(0, slot))?;
        from = slot + 1;
    }
    answers_from(from, packed(NO_MORE_FILES, 0))
}
