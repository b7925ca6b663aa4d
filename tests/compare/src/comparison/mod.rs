//! One library against the plain Rust of this package.
//!
//! The library is a function that makes a call on a scene: the archive, or in
//! this package's tests the plain Rust with a fault. `both` makes one call on
//! both and compares all that it can have touched; `singles`, `history` and
//! `torn` choose the calls; `files` keeps the contents of all files beside a
//! history; `search` lists by hand what a whole search must find; `deeds` tells
//! what a call did with spare clusters.

pub mod both;
pub mod deeds;
pub mod files;
pub mod guarded;
pub mod history;
pub mod lines;
pub mod read_back;
pub mod search;
pub mod seeds;
pub mod singles;
pub mod tally;
pub mod torn;

use crate::volumes::calls::{Call, Scene};
use guarded::Guarded;
use tally::Tally;

/// Makes a call on the library that is compared.
pub type Library = fn(&Call, &mut Scene<Guarded>) -> u64;

/// The calls of one seed: about as many single ones as in a history, and a few
/// on torn disks.
pub const CALLS_OF_A_SEED: u64 = singles::CALLS + history::CALLS + torn::CALLS;

/// Compares all calls of a seed; the error says where the libraries differ.
/// The guards are so many bytes long.
pub fn compare_seed(seed: u64, library: Library, guard: usize) -> Result<Tally, String> {
    let mut tally = Tally::default();
    singles::compare(seed, library, guard, &mut tally)?;
    history::compare(seed, library, guard, &mut tally)?;
    torn::compare(seed, library, guard, &mut tally)?;
    Ok(tally)
}
