//! Volumes, open tables and calls to try the code on, made from a seed.
//!
//! Nothing here uses the calls themselves: a volume is laid out from a plan
//! of its own, so that what check must find is known beforehand.

pub mod bad_or_reserved;
pub mod broken;
pub mod calls;
pub mod chains;
pub mod damage;
pub mod finds;
pub mod mixed;
pub mod open_tables;
pub mod patterns;
pub mod plan;
pub mod random;
pub mod random_calls;
pub mod scenes;
pub mod sound;
pub mod texts;

use crate::volume::kind::Kind;

/// The root's bytes, where the image has them.
pub fn root<'a>(kind: &Kind, image: &'a [u8]) -> &'a [u8] {
    let root = kind.root_at()..kind.system_bytes();
    image.get(root).unwrap_or(&[])
}

/// The number in four bytes of a record or an entry; 0 where it has none.
pub fn word(bytes: &[u8], at: usize) -> u32 {
    let field = bytes.get(at..).and_then(|bytes| bytes.first_chunk());
    field.map_or(0, |field| u32::from_le_bytes(*field))
}
