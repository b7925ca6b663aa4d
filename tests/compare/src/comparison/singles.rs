//! Single calls, each on the scene as it was made.

use super::both::Both;
use super::tally::Tally;
use super::Library;
use crate::volumes::calls::Call;
use crate::volumes::random::Random;
use crate::volumes::random_calls::{buffer_for, odd_call, random_call, random_name};
use crate::volumes::scenes::any_scene;

const SCENES: u64 = 16;
const CALLS_ON_A_SCENE: u64 = 29;

/// The first calls on a scene: rescue alone does not refuse a volume that is
/// not sound.
const RESCUES: u64 = 4;

/// The single calls of a seed.
pub const CALLS: u64 = SCENES * CALLS_ON_A_SCENE;

pub fn compare(seed: u64, library: Library, guard: usize, tally: &mut Tally) -> Result<(), String> {
    for number in 0..SCENES {
        compare_on_scene(SCENES * seed + number, library, guard, tally)
            .map_err(|what| format!("scene {number}, {what}"))?;
    }
    Ok(())
}

fn compare_on_scene(
    seed: u64,
    library: Library,
    guard: usize,
    tally: &mut Tally,
) -> Result<(), String> {
    let mut random = Random::new(!seed);
    let (kind, scene) = any_scene(seed);
    let mut both = Both::new(scene, library, guard);
    for number in 0..CALLS_ON_A_SCENE {
        let call = if number < RESCUES {
            let name = random_name(kind, &both.before.image, 8, &mut random);
            Call::Rescue { name }
        } else if random.one_in(2) {
            random_call(kind, &both.before, &mut random)
        } else {
            odd_call(kind, &both.before, &mut random)
        };
        both.lend_buffer(buffer_for(&call, &mut random));
        let ending = both
            .make(&call)
            .map_err(|what| format!("single call {number}, {what}"))?;
        tally.note(&call, ending.refusal);
        tally.note_deed(ending.deed);
        both.take_back();
    }
    Ok(())
}
