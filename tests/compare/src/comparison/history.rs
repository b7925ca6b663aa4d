//! A history: several hundred calls, one after the other on one volume and one
//! open table.

use super::both::Both;
use super::files::{After, Files};
use super::read_back::compare_by_reading;
use super::search::compare_search;
use super::tally::Tally;
use super::Library;
use crate::volumes::calls::Call;
use crate::volumes::finds::Search;
use crate::volumes::random::Random;
use crate::volumes::random_calls::{buffer_for, random_call};
use crate::volumes::scenes::history_scene;

/// The calls of a history.
pub const CALLS: u64 = 400;

/// All files are read back after so many calls.
const CALLS_UNTIL_READING: u64 = 50;

pub fn compare(seed: u64, library: Library, guard: usize, tally: &mut Tally) -> Result<(), String> {
    let mut random = Random::new(seed);
    let (plan, scene) = history_scene(&mut random);
    let mut files = Files::of(&plan, &scene.table);
    let mut both = Both::new(scene, library, guard);
    for number in 1..=CALLS {
        let at = |what| format!("history, call {number}, {what}");
        let call = random_call(plan.kind, &both.before, &mut random);
        both.lend_buffer(buffer_for(&call, &mut random));
        let ending = both.make(&call).map_err(at)?;
        tally.note(&call, ending.refusal);
        tally.note_deed(ending.deed);
        if ending.refusal.is_none() {
            follow(&mut files, &call, ending.answer, &both).map_err(at)?;
        }
        both.go_on();
        if number % CALLS_UNTIL_READING == 0 {
            compare_by_reading(&files, &both).map_err(at)?;
        }
    }
    search_all(&files, &both, &mut random).map_err(|what| format!("history, {what}"))
}

fn follow(files: &mut Files, call: &Call, answer: u64, both: &Both) -> Result<(), String> {
    let after = After {
        value: answer as u32,
        table: &both.other.table,
        buffer: &both.other.buffer,
    };
    let followed = files.follow(call, after);
    followed.map_err(|what| format!("{call}: {what}"))
}

/// A whole search through the library, on a copy, against the history's files.
fn search_all(files: &Files, both: &Both, random: &mut Random) -> Result<(), String> {
    let search = Search::random(files.kind, &both.plain.image, random);
    let listed = files.listed(&search.pattern, search.mask);
    let mut copy = both.other.clone();
    compare_search(&search, &listed, |find| (both.library)(find, &mut copy))?;
    let image = &copy.image;
    image.compare("image that was only searched", &both.plain.image)
}
