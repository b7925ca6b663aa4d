//! Table entries of 12 bits.

use super::kind::{Kind, MOST_CLUSTERS};

/// The end value that is written.
pub const END: u16 = 0xFFF;

/// The entries of a table, 0 and 1 with them, past the last cluster 0.
pub type Values = [u16; MOST_CLUSTERS + 2];

pub const fn is_reserved(value: u16) -> bool {
    0xFF0 <= value && value <= 0xFF6
}

pub const fn is_bad(value: u16) -> bool {
    value == 0xFF7
}

pub const fn is_end(value: u16) -> bool {
    0xFF8 <= value && value <= 0xFFF
}

/// Entry `n` of a copy that holds it.
pub fn value(copy: &[u8], n: usize) -> u16 {
    let at = n * 3 / 2;
    let word = u16::from_le_bytes([copy[at], copy[at + 1]]);
    if n.is_multiple_of(2) {
        word & 0x0FFF
    } else {
        word >> 4
    }
}

/// Stores entry `n` of a copy and keeps the neighbour's four bits.
pub fn set_value(copy: &mut [u8], n: usize, value: u16) {
    let at = n * 3 / 2;
    if n.is_multiple_of(2) {
        copy[at] = value as u8;
        copy[at + 1] = copy[at + 1] & 0xF0 | (value >> 8) as u8 & 0x0F;
    } else {
        copy[at] = copy[at] & 0x0F | (value << 4) as u8;
        copy[at + 1] = (value >> 4) as u8;
    }
}

/// Stores the entry of a cluster in both copies of an image.
pub fn set_in_both(kind: &Kind, image: &mut [u8], cluster: u16, value: u16) {
    for copy in 0..2 {
        let bytes = &mut image[kind.copy_at(copy)..][..kind.fat_bytes()];
        set_value(bytes, usize::from(cluster), value);
    }
}

/// All entries of a copy of this kind, two to each three bytes.
pub fn values(kind: &Kind, copy: &[u8]) -> Values {
    let mut values = [0; MOST_CLUSTERS + 2];
    let entries = kind.last_cluster() + 1;
    for (pair, bytes) in values[..entries].chunks_mut(2).zip(copy.chunks(3)) {
        pair[0] = u16::from_le_bytes([bytes[0], bytes[1]]) & 0x0FFF;
        if let [_, odd] = pair {
            *odd = u16::from_le_bytes([bytes[1], bytes[2]]) >> 4;
        }
    }
    values
}
