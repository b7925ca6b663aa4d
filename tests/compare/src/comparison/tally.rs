//! How often each call ended well, and by each line of the refusal table; how
//! often calls met spare clusters.

use std::collections::BTreeMap;

use super::deeds::DEEDS;
use super::lines::{allows, LINES};
use crate::volume::answer::Refusal;
use crate::volumes::calls::{Call, NAMES};

/// Each pair of call and line must be met this often; in a short run, once in
/// 7,500 calls.
const LEAST: u64 = 20;
const CALLS_FOR_ONE: u64 = 7500;

/// Each deed on spare clusters must be met this often in a run of so many calls;
/// in a shorter one, once in 8,000 calls.
const LEAST_DEEDS: u64 = 100;
const CALLS_OF_A_RUN: u64 = 200_000;
const CALLS_FOR_ONE_DEED: u64 = 8000;

/// The row of rescue on torn disks, below those of the calls.
pub const TORN: &str = "rescue_torn";

#[derive(Default)]
pub struct Tally {
    met: BTreeMap<(&'static str, Option<Refusal>), u64>,
    deeds: BTreeMap<&'static str, u64>,
}

/// The calls, and rescue on torn disks.
pub fn rows() -> impl Iterator<Item = &'static str> {
    NAMES.into_iter().chain([TORN])
}

/// All ways a call can end: well, and by each line.
fn endings() -> impl Iterator<Item = Option<Refusal>> {
    let lines = LINES.iter().map(|line| Some(line.refusal));
    std::iter::once(None).chain(lines)
}

impl Tally {
    pub fn note(&mut self, call: &Call, refusal: Option<Refusal>) {
        self.note_as(call.name(), refusal);
    }

    pub fn note_as(&mut self, row: &'static str, refusal: Option<Refusal>) {
        *self.met.entry((row, refusal)).or_default() += 1;
    }

    pub fn note_deed(&mut self, deed: Option<&'static str>) {
        if let Some(deed) = deed {
            *self.deeds.entry(deed).or_default() += 1;
        }
    }

    pub fn add(&mut self, other: Tally) {
        for (pair, times) in other.met {
            *self.met.entry(pair).or_default() += times;
        }
        for (deed, times) in other.deeds {
            *self.deeds.entry(deed).or_default() += times;
        }
    }

    pub fn calls(&self) -> u64 {
        self.met.values().sum()
    }

    fn times(&self, call: &'static str, ending: Option<Refusal>) -> u64 {
        self.met.get(&(call, ending)).copied().unwrap_or(0)
    }

    fn times_of_deed(&self, deed: &'static str) -> u64 {
        self.deeds.get(deed).copied().unwrap_or(0)
    }

    /// The counts, a row for each call, `-` where the line is not about it; then
    /// the deeds.
    pub fn print(&self) {
        let numbers = LINES.iter().map(|line| line.refusal.number().to_string());
        let words = LINES.iter().map(|line| line.word.to_string());
        print_row("", std::iter::once("0".to_string()).chain(numbers));
        print_row("", std::iter::once("well".to_string()).chain(words));
        for call in rows() {
            let cell = |ending| match (self.times(call, ending), allows(call, ending)) {
                (0, false) => "-".to_string(),
                (times, _) => times.to_string(),
            };
            print_row(call, endings().map(cell));
        }
        for deed in DEEDS {
            println!("{deed}: {}", self.times_of_deed(deed));
        }
    }

    /// What is amiss: pairs that the table has not, pairs and deeds met too
    /// rarely.
    pub fn faults(&self) -> Vec<String> {
        let least = LEAST.min(self.calls() / CALLS_FOR_ONE);
        let faults_of = |call| endings().filter_map(move |end| self.fault(call, end, least));
        let rare_deeds = DEEDS.into_iter().filter_map(|deed| self.rare_deed(deed));
        rows().flat_map(faults_of).chain(rare_deeds).collect()
    }

    fn rare_deed(&self, deed: &'static str) -> Option<String> {
        let least = match self.calls() {
            calls if calls < CALLS_OF_A_RUN => calls / CALLS_FOR_ONE_DEED,
            _ => LEAST_DEEDS,
        };
        let times = self.times_of_deed(deed);
        (times < least).then(|| format!("{deed} {times} times, not {least}"))
    }

    fn fault(&self, call: &'static str, ending: Option<Refusal>, least: u64) -> Option<String> {
        let times = self.times(call, ending);
        let what = match ending {
            None => format!("{call} ended well"),
            Some(line) => format!("{call} refused by {} ({line:?})", line.number()),
        };
        match allows(call, ending) {
            true if times < least => Some(format!("{what} {times} times, not {least}")),
            false if times > 0 => Some(format!("{what}, which the table has not")),
            _ => None,
        }
    }
}

fn print_row(head: &str, cells: impl Iterator<Item = String>) {
    let cells: Vec<String> = cells.map(|cell| format!("{cell:>7}")).collect();
    println!("{head:<12}{}", cells.concat());
}
