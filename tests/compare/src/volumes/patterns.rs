//! Patterns as callers give them, good and bad.

use super::random::Random;
use super::texts::{good_name, noise_name, without_padding, GOOD};
use crate::volume::names::is_name_byte;

/// Patterns that match all names, or many.
const WIDE: [&str; 7] = ["*.*", "*.*", "*", "*.", "????????.???", "?*.?*", "DAY???.*"];

/// Patterns that break the rules, most of them by one character.
const BAD: [&[u8]; 20] = [
    b"",
    b".",
    b"..",
    b".LOG",
    b".*",
    b"**",
    b"*?",
    b"*A",
    b"A**",
    b"*.**",
    b"*.*A",
    b"ABCDEFGH*",
    b"????????*",
    b"*.ABC*",
    b"*.????",
    b"A.B.C",
    b"*.*.",
    b"* ",
    b"\x80*",
    b"?\xFF.*",
];

/// Mostly a good pattern, and mostly one that matches the stored name; one in
/// `odds` was not meant to be good.
pub fn random_pattern(stored: &[u8], odds: usize, random: &mut Random) -> Vec<u8> {
    if random.one_in(odds) {
        return bad_pattern(stored, random);
    }
    match random.below(12) {
        0 => good_name(random),
        1 | 2 => wide_pattern(random),
        3 => without_extension(fitting_pattern(stored, random)),
        4 => near_pattern(stored, random),
        5 | 6 => fitting_pattern(stored, random).to_ascii_lowercase(),
        _ => fitting_pattern(stored, random),
    }
}

/// A pattern that matches all names, or many.
pub fn wide_pattern(random: &mut Random) -> Vec<u8> {
    random.pick(&WIDE).as_bytes().to_vec()
}

/// A good pattern that matches the stored name.
pub fn fitting_pattern(stored: &[u8], random: &mut Random) -> Vec<u8> {
    let mut pattern = fitting_part(&stored[..8], random);
    if pattern.is_empty() {
        pattern.push(b'?');
    }
    let extension = fitting_part(&stored[8..11], random);
    if !extension.is_empty() || random.one_in(8) {
        pattern.push(b'.');
        pattern.extend(extension);
    }
    pattern
}

/// The part's bytes, `?` for those out of a caller's reach. Some others become
/// `?` too, or more of them follow, or `*` stands for the rest.
fn fitting_part(part: &[u8], random: &mut Random) -> Vec<u8> {
    let mut pattern = in_reach(part);
    match random.below(5) {
        0 => {
            for character in &mut pattern {
                *character = *random.pick(&[*character, b'?']);
            }
        }
        1 => pattern.resize(random.between(pattern.len(), part.len()), b'?'),
        2 => {
            pattern.truncate(random.below(part.len()));
            pattern.push(b'*');
        }
        _ => {}
    }
    pattern
}

/// A part without its padding, with `?` for each byte out of a caller's reach.
fn in_reach(part: &[u8]) -> Vec<u8> {
    let character = |&byte: &u8| match is_name_byte(byte) {
        true => byte,
        false => b'?',
    };
    without_padding(part).iter().map(character).collect()
}

/// The pattern up to its dot.
fn without_extension(mut pattern: Vec<u8>) -> Vec<u8> {
    let dot = pattern.iter().position(|&byte| byte == b'.');
    pattern.truncate(dot.unwrap_or(pattern.len()));
    pattern
}

/// A pattern that misses the stored name by one character.
fn near_pattern(stored: &[u8], random: &mut Random) -> Vec<u8> {
    let mut pattern = fitting_pattern(stored, random);
    let at = random.below(pattern.len());
    pattern[at] = *random.pick(GOOD);
    pattern
}

/// Mostly a pattern that breaks the rules by one character.
fn bad_pattern(stored: &[u8], random: &mut Random) -> Vec<u8> {
    match random.below(4) {
        0 => noise_name(random),
        1 => too_long_pattern(stored, random),
        2 => {
            let mut pattern = fitting_pattern(stored, random);
            let at = random.below(pattern.len() + 1);
            let byte = random.byte();
            let others = [b' ', b'.', b'*', b'?', 0x00, 0x80, 0xE5, byte];
            pattern.insert(at, *random.pick(&others));
            pattern
        }
        _ => random.pick(&BAD).to_vec(),
    }
}

/// A pattern with one character too many in one of its parts.
fn too_long_pattern(stored: &[u8], random: &mut Random) -> Vec<u8> {
    let (mut base, mut extension) = (in_reach(&stored[..8]), in_reach(&stored[8..11]));
    let one_more = *random.pick(b"*?A");
    match random.one_in(2) {
        true => {
            base.resize(8, b'?');
            base.push(one_more);
        }
        false => {
            extension.resize(3, b'?');
            extension.push(one_more);
        }
    }
    [base, extension].join(&b'.')
}
