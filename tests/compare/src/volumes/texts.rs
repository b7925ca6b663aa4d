//! Names, stamps and attributes as callers give them, good and bad.

use super::random::Random;

/// The characters of a name in capitals.
pub const GOOD: &[u8] = b"ABCDEFGHIJKLMNOPQRSTUVWXYZ0123456789$&#@!%'()-{}_";

/// Names that come up often, so that calls meet each other's files.
const USUAL: [&str; 6] = [
    "TARE.KEY",
    "DAY001.LOG",
    "A",
    "B.C",
    "{-}$&#@!.%'(",
    "12345678.901",
];

/// An attribute of the bits 01, 02, 04 and 20.
pub fn attribute(random: &mut Random) -> u8 {
    random.byte() & 0x27
}

/// A caller's name that keeps the rules, in capitals.
pub fn good_name(random: &mut Random) -> Vec<u8> {
    if random.one_in(3) {
        return random.pick(&USUAL).as_bytes().to_vec();
    }
    let base = random.between(1, 8);
    let extension = random.below(4);
    let mut name: Vec<u8> = (0..base).map(|_| *random.pick(GOOD)).collect();
    if extension > 0 {
        name.push(b'.');
        name.extend((0..extension).map(|_| *random.pick(GOOD)));
    }
    name
}

/// The stored form of a caller's name in capitals that keeps the rules.
pub fn stored_form(name: &[u8]) -> [u8; 11] {
    let mut stored = [b' '; 11];
    let mut parts = name.split(|&byte| byte == b'.');
    for (at, part) in [0, 8].into_iter().zip(&mut parts) {
        stored[at..at + part.len()].copy_from_slice(part);
    }
    stored
}

/// A part of a stored name without its padding.
pub fn without_padding(part: &[u8]) -> &[u8] {
    let last = part.iter().rposition(|&byte| byte != b' ');
    &part[..last.map_or(0, |last| last + 1)]
}

/// A caller's name for stored bytes that are in reach.
pub fn callers_form(stored: &[u8]) -> Vec<u8> {
    let mut name = without_padding(&stored[..8]).to_vec();
    let extension = without_padding(&stored[8..11]);
    if !extension.is_empty() {
        name.push(b'.');
        name.extend_from_slice(extension);
    }
    name
}

/// Stored name bytes of a live entry that check passes, most of them odd.
pub fn odd_stored_name(random: &mut Random) -> [u8; 11] {
    let mut stored = [0; 11];
    loop {
        random.fill(&mut stored);
        if random.one_in(3) {
            stored[4..].fill(b' ');
        }
        if ![0x00, 0xE5, 0x2E].contains(&stored[0]) {
            return stored;
        }
    }
}

/// A name as a caller may write it: small letters, a dot at the end, or
/// something that breaks the rules.
pub fn varied(random: &mut Random, name: &[u8]) -> Vec<u8> {
    let mut name = name.to_vec();
    match random.below(8) {
        0 => name.make_ascii_lowercase(),
        1 if !name.contains(&b'.') => name.push(b'.'),
        2 => {
            let at = random.below(name.len() + 1);
            let byte = random.byte();
            name.insert(
                at,
                *random.pick(&[b' ', b'.', b'a', 0x80, 0xE5, 0x00, byte]),
            );
        }
        3 if random.one_in(4) => name.clear(),
        _ => {}
    }
    name
}

/// Bytes that were never meant as a name, of any length up to 300.
pub fn noise_name(random: &mut Random) -> Vec<u8> {
    let length = *random.pick(&[0, 1, 8, 9, 11, 12, 13, 40, 300]);
    let mut name = vec![*random.pick(&[b'A', b'.', b' ', 0x00, 0xE5]); length];
    if random.one_in(2) {
        random.fill(&mut name);
    }
    name
}

/// The six numbers of a stamp; one in eight has a number out of its range.
pub fn stamp(random: &mut Random) -> [u32; 6] {
    let most = [23, 59, 29, 119, 12, 31];
    let least = [0, 0, 0, 0, 1, 1];
    let mut stamp = [0; 6];
    for (at, number) in stamp.iter_mut().enumerate() {
        *number = match random.below(4) {
            0 => least[at],
            1 => most[at],
            _ => random.between(least[at] as usize, most[at] as usize) as u32,
        };
    }
    if random.one_in(8) {
        let at = random.below(6);
        let above = most[at] + 1;
        let below = least[at].wrapping_sub(1);
        stamp[at] = *random.pick(&[above, below, 256 + least[at], u32::MAX]);
    }
    stamp
}
