//! Patterns given by callers.

use super::answer::{unless, Refusal};
use super::names::{is_name_byte, parts};

/// Stands for any one byte. No character of a name is the same.
const ANY: u8 = b'?';

/// Fills the rest of its part with `?`.
const REST: u8 = b'*';

/// A pattern laid out as a stored name: 8 bytes and 3, each a byte to be met
/// or `?`.
#[derive(Clone, Copy, Debug, PartialEq, Eq)]
pub struct Pattern([u8; 11]);

impl Pattern {
    /// The pattern that a caller gives, or 42.
    pub fn given(given: &[u8]) -> Result<Pattern, Refusal> {
        let (base, extension) = parts(given);
        unless(!base.is_empty(), Refusal::BadName)?;
        let mut pattern = [b' '; 11];
        let (front, back) = pattern.split_at_mut(8);
        lay_out(front, base)?;
        lay_out(back, extension)?;
        Ok(Pattern(pattern))
    }

    /// Whether the 11 stored bytes of a name match, whatever they hold.
    pub fn matches(&self, name: &[u8]) -> bool {
        self.0
            .iter()
            .zip(name)
            .all(|(&wanted, &stored)| wanted == ANY || wanted == stored)
    }
}

/// Lays a part out over its whole place, or 42.
fn lay_out(place: &mut [u8], part: &[u8]) -> Result<(), Refusal> {
    // The star counts as a character even where it has nothing left to fill.
    unless(part.len() <= place.len(), Refusal::BadName)?;
    let (characters, filler) = match part {
        [before @ .., REST] => (before, ANY),
        _ => (part, b' '),
    };
    // A star that is left among the characters was not the last.
    unless(
        characters.iter().copied().all(is_character),
        Refusal::BadName,
    )?;
    let (front, rest) = place.split_at_mut(characters.len());
    front.copy_from_slice(characters);
    front.make_ascii_uppercase();
    rest.fill(filler);
    Ok(())
}

/// Whether a caller's byte stands for one byte: a name's character or `?`.
fn is_character(given: u8) -> bool {
    given == ANY || is_name_byte(given.to_ascii_uppercase())
}
