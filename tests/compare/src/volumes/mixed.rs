//! Volumes of all sorts in turn: sound ones, each finding, and damage.

use super::broken::{break_copies, break_kind, break_plan};
use super::damage::{flip_byte, flip_root_byte, flip_table_byte, lengths};
use super::plan::Plan;
use super::random::Random;
use super::sound::sound_plan;

/// So many seeds in a row have volumes of all sorts.
pub const IN_TURN: u64 = 10;

/// The image that belongs to a seed. Of ten seeds in a row two give sound
/// volumes, each finding has one, and one has damage of any sort.
pub fn mixed_image(seed: u64) -> Vec<u8> {
    let mut random = Random::new(seed);
    match seed % IN_TURN {
        0 | 1 => sound_plan(&mut random).image(),
        2 => image_of_no_kind(&mut random),
        3 => {
            let plan = broken_plan(random.between(4, 10) as u32, &mut random);
            let mut image = plan.image();
            break_copies(plan.kind, &mut image, &mut random);
            image
        }
        9 => damaged_image(&mut random),
        turn => broken_plan(turn as u32 - 1, &mut random).image(),
    }
}

/// Finding 1: also the lengths that matter, noise, and no bytes at all.
fn image_of_no_kind(random: &mut Random) -> Vec<u8> {
    let plan = sound_plan(random);
    let mut image = plan.image();
    match random.below(4) {
        0 => {
            let length = random.choose(&lengths(plan.kind)).unwrap_or(0);
            image.resize(length.min(plan.kind.image_bytes() - 1), 0);
        }
        1 => {
            image.truncate(random.below(7000));
            random.fill(&mut image);
        }
        _ => break_kind(&mut image, random),
    }
    image
}

/// A volume with this finding, and one time in four a later one besides. A
/// finding above 7 gives a sound volume.
fn broken_plan(finding: u32, random: &mut Random) -> Plan {
    loop {
        let mut plan = sound_plan(random);
        if finding > 7 {
            return plan;
        }
        if random.one_in(4) {
            let later = random.between(finding as usize, 7) as u32;
            break_plan(&mut plan, later, random);
        }
        if break_plan(&mut plan, finding, random).is_some() {
            return plan;
        }
    }
}

/// One byte changed anywhere in the system area, or some bytes where they
/// matter; the volume may have been broken before.
fn damaged_image(random: &mut Random) -> Vec<u8> {
    let plan = broken_plan(random.between(5, 15) as u32, random);
    let mut image = plan.image();
    if random.one_in(2) {
        flip_byte(plan.kind, &mut image, random);
        return image;
    }
    for _ in 0..random.between(1, 3) {
        match random.one_in(2) {
            true => flip_root_byte(plan.kind, &mut image, random),
            false => flip_table_byte(plan.kind, &mut image, random),
        }
    }
    image
}
