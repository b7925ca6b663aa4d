//! Entry at a slot, on any image of a kind, sound or not.

use super::answer::{answer, put, Refusal};
use super::directory::{entries, is_live};
use super::kind::Kind;

pub fn entry(image: &[u8], slot: u32, out: &mut [u8]) -> u64 {
    answer(stored_entry(image, slot, out))
}

pub fn stored_entry(image: &[u8], slot: u32, out: &mut [u8]) -> Result<u32, Refusal> {
    let kind = Kind::of_image(image).ok_or(Refusal::NotOfAKind)?;
    match entries(kind, image).get(slot as usize) {
        Some(entry) if is_live(entry) => {
            // Name and attribute, then all from the time on.
            let mut shown = [0; 22];
            shown[..12].copy_from_slice(&entry[..12]);
            shown[12..].copy_from_slice(&entry[22..]);
            put(out, &shown);
            Ok(1)
        }
        _ => Ok(0),
    }
}
