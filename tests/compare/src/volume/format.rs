//! Format: a blank volume of a kind.

use super::answer::{answer, Refusal};
use super::kind::Kind;

pub fn format(image: &mut [u8], kind: u32) -> u64 {
    answer(formatted(image, kind))
}

pub fn formatted(image: &mut [u8], number: u32) -> Result<u32, Refusal> {
    let fits = |kind: &&Kind| image.len() == kind.image_bytes();
    let kind = Kind::of_number(number)
        .filter(fits)
        .ok_or(Refusal::NotOfAKind)?;
    let (system, data) = image.split_at_mut(kind.system_bytes());
    system.fill(0);
    data.fill(0xF6);
    for copy in 0..2 {
        system[kind.copy_at(copy)..][..3].copy_from_slice(&[kind.byte, 0xFF, 0xFF]);
    }
    Ok(0)
}
