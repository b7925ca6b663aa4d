//! Random finds, and whole searches.

use super::calls::Call;
use super::patterns::{fitting_pattern, random_pattern, wide_pattern};
use super::random::Random;
use super::root;
use crate::volume::kind::Kind;

/// A find that begins near some entry of an image of this kind, with a pattern
/// made from its name. One slot in `odds` is far from it, and one pattern in
/// `odds` was not meant to be good.
pub fn random_find(kind: &Kind, image: &[u8], odds: usize, random: &mut Random) -> Call {
    let (slot, name) = some_entry(kind, image, random);
    Call::Find {
        pattern: random_pattern(&name, odds, random),
        slot: slot_to_begin(kind, slot, odds, random),
        mask: some_mask(random),
    }
}

/// A whole search: finds with one good pattern and one mask.
#[derive(Clone, Debug)]
pub struct Search {
    pub pattern: Vec<u8>,
    pub mask: u32,
}

impl Search {
    /// Half of them for many files of an image of this kind, half for one.
    pub fn random(kind: &Kind, image: &[u8], random: &mut Random) -> Search {
        let (_, name) = some_entry(kind, image, random);
        let pattern = match random.one_in(2) {
            true => wide_pattern(random),
            false => fitting_pattern(&name, random),
        };
        let mask = some_mask(random);
        Search { pattern, mask }
    }

    /// The find that begins at this slot.
    pub fn find_from(&self, slot: u32) -> Call {
        Call::Find {
            pattern: self.pattern.clone(),
            slot,
            mask: self.mask,
        }
    }
}

/// The slot and name of an entry that was used: a file, the label, or erased.
fn some_entry(kind: &Kind, image: &[u8], random: &mut Random) -> (u32, [u8; 11]) {
    let entries = root(kind, image).as_chunks::<32>().0;
    let names = entries.iter().filter_map(|entry| entry.first_chunk());
    let used = (0..).zip(names).filter(|(_, name)| name[0] != 0x00);
    let used: Vec<(u32, [u8; 11])> = used.map(|(slot, name)| (slot, *name)).collect();
    random.choose(&used).unwrap_or((0, *b"DAY001  LOG"))
}

/// The first slot, or one near the entry's; one in `odds` is near the root's
/// end or past it.
fn slot_to_begin(kind: &Kind, slot: u32, odds: usize, random: &mut Random) -> u32 {
    let slots = kind.root_entries() as u32;
    let any = random.word() as u32;
    match random.one_in(odds) {
        true => *random.pick(&[slots - 1, slots, 256, slot + 256, u32::MAX, any]),
        false => *random.pick(&[0, 0, slot, slot, slot.saturating_sub(1), slot + 1]),
    }
}

/// Hidden and system.
const BOTH_BITS: u32 = 0x06;

/// Any mask, with both bits more often than not.
fn some_mask(random: &mut Random) -> u32 {
    let any = random.word() as u32;
    let with_both = [BOTH_BITS, 0xFF, any | BOTH_BITS];
    match random.one_in(2) {
        true => *random.pick(&with_both),
        false => *random.pick(&[0, 0x02, 0x04, !BOTH_BITS, any]),
    }
}
