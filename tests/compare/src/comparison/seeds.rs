//! Work over many seeds.

use std::fmt;
use std::ops::Range;

/// What went wrong at a seed.
#[derive(Debug)]
pub struct Failure {
    pub seed: u64,
    pub what: String,
}

/// With how to see it again.
impl fmt::Display for Failure {
    fn fmt(&self, f: &mut fmt::Formatter) -> fmt::Result {
        let Failure { seed, what } = self;
        write!(
            f,
            "seed {seed}: {what}\nagain: make compare N=1 SEED={seed}"
        )
    }
}

/// Does the work for each seed and adds up what it gives, up to the first
/// failure. On one thread: with a second one an emulator of the archive's
/// processor puts a barrier at every access to memory, and two threads take
/// longer than one.
pub fn over_seeds<Sum: Default>(
    seeds: Range<u64>,
    work: impl Fn(u64) -> Result<Sum, String>,
    add: impl Fn(&mut Sum, Sum),
) -> Result<Sum, Failure> {
    let mut sum = Sum::default();
    for seed in seeds {
        match work(seed) {
            Ok(more) => add(&mut sum, more),
            Err(what) => return Err(Failure { seed, what }),
        }
    }
    Ok(sum)
}
