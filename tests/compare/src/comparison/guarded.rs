//! Bytes with guard bytes around them.

use std::ops::{Deref, DerefMut};

use crate::volumes::random::Random;

/// The usual length of a guard. Odd, so that the bytes begin at an odd address.
pub const GUARD: usize = 61;
const GUARD_BYTE: u8 = 0xA5;

/// Bytes in the middle of a larger buffer, whose ends nobody may alter. With
/// guards of length 0 the buffer ends where the bytes end, so that a tool that
/// watches the memory sees each access outside them.
#[derive(Clone, Debug)]
pub struct Guarded {
    all: Vec<u8>,
    guard: usize,
}

impl Guarded {
    pub fn new(content: &[u8], guard: usize) -> Guarded {
        let mut all = Vec::with_capacity(content.len() + 2 * guard);
        all.resize(guard, GUARD_BYTE);
        all.extend_from_slice(content);
        all.resize(content.len() + 2 * guard, GUARD_BYTE);
        Guarded { all, guard }
    }

    /// Random bytes in guards.
    pub fn random(length: usize, random: &mut Random) -> Guarded {
        let mut content = vec![0; length];
        random.fill(&mut content);
        Guarded::new(&content, GUARD)
    }

    /// All bytes, with those of the guards.
    pub fn with_guards(&mut self) -> &mut [u8] {
        &mut self.all
    }

    /// Says where this is not the content in whole guards.
    pub fn compare(&self, what: &str, content: &[u8]) -> Result<(), String> {
        let Some(at) = self.difference(content) else {
            return Ok(());
        };
        match usize::try_from(at) {
            Ok(at) if at < content.len() => Err(format!(
                "the {what} differs at byte {at}: {:02X} expected, {:02X} there",
                content[at], self[at]
            )),
            _ => Err(format!(
                "a guard byte at {at} of the {what}'s {} bytes was altered",
                content.len()
            )),
        }
    }

    /// The first place, counted from the content, where this is not the
    /// content in whole guards.
    fn difference(&self, content: &[u8]) -> Option<isize> {
        let (before, rest) = self.all.split_at(self.guard);
        let (inside, after) = rest.split_at(rest.len() - self.guard);
        let intact = |guard: &[u8]| guard.iter().all(|&byte| byte == GUARD_BYTE);
        if intact(before) && inside == content && intact(after) {
            return None;
        }
        let guard = std::iter::repeat_n(&GUARD_BYTE, self.guard);
        let expected = guard.clone().chain(content).chain(guard);
        let place = self.all.iter().zip(expected).position(|(a, b)| a != b);
        place.map(|place| place as isize - self.guard as isize)
    }
}

impl Deref for Guarded {
    type Target = [u8];

    fn deref(&self) -> &[u8] {
        &self.all[self.guard..self.all.len() - self.guard]
    }
}

impl DerefMut for Guarded {
    fn deref_mut(&mut self) -> &mut [u8] {
        let end = self.all.len() - self.guard;
        &mut self.all[self.guard..end]
    }
}
