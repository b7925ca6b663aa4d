//! The names of the plain files in lower slots.

use super::kind::MOST_SLOTS;

/// Names in the order they came, found by a hash.
pub struct NameSet {
    names: [u128; MOST_SLOTS],
    count: usize,
    /// For each hash the number of a name, counted from 1; 0 is none.
    places: [u8; 256],
}

impl NameSet {
    pub fn new() -> NameSet {
        NameSet {
            names: [0; MOST_SLOTS],
            count: 0,
            places: [0; 256],
        }
    }

    /// Takes a name up, or tells by `false` that it is here already.
    pub fn insert(&mut self, bytes: &[u8]) -> bool {
        let mut padded = [0; 16];
        padded[..bytes.len()].copy_from_slice(bytes);
        let name = u128::from_le_bytes(padded);
        let folded = (name as u64) ^ ((name >> 64) as u64).rotate_left(29);
        let mut hash = (folded.wrapping_mul(0x9E37_79B9_7F4A_7C15) >> 56) as u8;
        loop {
            match self.places[usize::from(hash)] {
                0 => break,
                taken if self.names[usize::from(taken) - 1] == name => return false,
                _ => hash = hash.wrapping_add(1),
            }
        }
        self.names[self.count] = name;
        self.count += 1;
        self.places[usize::from(hash)] = self.count as u8;
        true
    }
}
