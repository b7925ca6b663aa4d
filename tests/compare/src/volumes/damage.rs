//! Damage whose findings are not known beforehand.

use super::random::Random;
use crate::volume::kind::Kind;

/// Changes one byte anywhere in the system area.
pub fn flip_byte(kind: &Kind, image: &mut [u8], random: &mut Random) {
    let at = random.below(kind.system_bytes());
    image[at] ^= random.between(1, 255) as u8;
}

/// Changes one byte of the table in both copies alike.
pub fn flip_table_byte(kind: &Kind, image: &mut [u8], random: &mut Random) {
    let at = random.below(kind.fat_bytes());
    let bits = random.between(1, 255) as u8;
    for copy in 0..2 {
        image[kind.copy_at(copy) + at] ^= bits;
    }
}

/// Changes one byte of the root.
pub fn flip_root_byte(kind: &Kind, image: &mut [u8], random: &mut Random) {
    let at = random.between(kind.root_at(), kind.system_bytes() - 1);
    image[at] ^= random.between(1, 255) as u8;
}

/// Lengths around those that matter, and the empty one.
pub fn lengths(kind: &Kind) -> [usize; 10] {
    let system = kind.system_bytes();
    let whole = kind.image_bytes();
    [
        0,
        1,
        512,
        513,
        system - 1,
        system,
        system + 1,
        whole - 1,
        whole,
        whole + 1,
    ]
}
