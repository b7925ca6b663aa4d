//! Names given by callers.

use super::answer::Refusal;

/// A name as it is stored: 8 bytes and 3, padded by spaces.
pub type Name = [u8; 11];

/// Whether a stored byte is one that a caller's name can hold.
pub fn is_name_byte(byte: u8) -> bool {
    byte.is_ascii_uppercase() || byte.is_ascii_digit() || b"$&#@!%'()-{}_".contains(&byte)
}

/// Stores a part's characters as capitals, or tells that they break the rules.
fn store_part(place: &mut [u8], part: &[u8]) -> bool {
    if part.len() > place.len() {
        return false;
    }
    for (stored, given) in place.iter_mut().zip(part) {
        *stored = given.to_ascii_uppercase();
    }
    place[..part.len()].iter().all(|&byte| is_name_byte(byte))
}

/// What a caller gives before the first dot and after it.
pub fn parts(given: &[u8]) -> (&[u8], &[u8]) {
    match given.iter().position(|&byte| byte == b'.') {
        Some(dot) => (&given[..dot], &given[dot + 1..]),
        None => (given, &[]),
    }
}

/// The stored form of a caller's name, or 42.
pub fn stored(given: &[u8]) -> Result<Name, Refusal> {
    let (base, extension) = parts(given);
    let mut name = [b' '; 11];
    let (front, back) = name.split_at_mut(8);
    if !base.is_empty() && store_part(front, base) && store_part(back, extension) {
        Ok(name)
    } else {
        Err(Refusal::BadName)
    }
}
