//! compare_calls CALLS [SEED] [bare]: the archive against the plain Rust, all
//! calls on volumes with open tables.
//!
//! Makes CALLS calls or more from the seeds SEED (0), SEED + 1 and so on: of
//! each seed single calls on scenes of all sorts, and a history. It prints how
//! often each call ended well and by each line of the refusal table, and how
//! often calls met spare clusters; what was met too rarely fails the run. The
//! first difference is printed with its seed and ends it. With `bare` there are
//! no guard bytes: each buffer ends where its bytes end, so that valgrind sees
//! each access outside it.

use std::process::ExitCode;

use compare::comparison::guarded::GUARD;
use compare::comparison::seeds::over_seeds;
use compare::comparison::tally::Tally;
use compare::comparison::{compare_seed, CALLS_OF_A_SEED};
use compare::volumes::calls::perform_on_archive;

/// Compares the calls of all seeds; true where nothing is amiss.
fn compare(calls: u64, first: u64, guard: usize) -> bool {
    let seeds = first..first + calls.div_ceil(CALLS_OF_A_SEED);
    let work = |seed| compare_seed(seed, perform_on_archive, guard);
    let tally = match over_seeds(seeds, work, Tally::add) {
        Ok(tally) => tally,
        Err(failure) => {
            println!("calls of {failure}");
            return false;
        }
    };
    tally.print();
    println!("{} calls on each library: all alike", tally.calls());
    let faults = tally.faults();
    for fault in &faults {
        println!("{fault}");
    }
    faults.is_empty()
}

fn main() -> ExitCode {
    let mut words: Vec<String> = std::env::args().skip(1).collect();
    let bare = words.last().is_some_and(|word| word == "bare");
    if bare {
        words.pop();
    }
    let guard = if bare { 0 } else { GUARD };
    let numbers: Option<Vec<u64>> = words.iter().map(|word| word.parse().ok()).collect();
    let good = match numbers.as_deref() {
        Some(&[calls]) => compare(calls, 0, guard),
        Some(&[calls, seed]) => compare(calls, seed, guard),
        _ => {
            eprintln!("compare_calls CALLS [SEED] [bare]");
            return ExitCode::from(2);
        }
    };
    println!("{} passed, {} failed", u8::from(good), u8::from(!good));
    ExitCode::from(u8::from(!good))
}
