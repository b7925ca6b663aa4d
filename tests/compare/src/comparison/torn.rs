//! Disks torn by a reset: some calls on a sound volume, a save of it cut
//! short, and rescue of what then stands on the disk.

use super::both::Both;
use super::tally::{Tally, TORN};
use super::Library;
use crate::volume::kind::SECTOR;
use crate::volumes::calls::{perform, Call, Scene};
use crate::volumes::random::Random;
use crate::volumes::random_calls::{buffer_for, random_call, random_name};
use crate::volumes::scenes::history_scene;

const DISKS: u64 = 4;
const CALLS_ON_A_DISK: u64 = 10;

/// The calls of a seed.
pub const CALLS: u64 = DISKS * CALLS_ON_A_DISK;

pub fn compare(seed: u64, library: Library, guard: usize, tally: &mut Tally) -> Result<(), String> {
    let mut random = Random::new(seed.rotate_left(32));
    let (plan, mut scene) = history_scene(&mut random);
    let saved = scene.image.clone();
    for _ in 0..random.between(1, 20) {
        let call = random_call(plan.kind, &scene, &mut random);
        // Format makes another volume.
        if !matches!(call, Call::Format { .. }) {
            scene.buffer = buffer_for(&call, &mut random);
            perform(&call, &mut scene);
        }
    }
    for number in 0..DISKS {
        let disk = Scene {
            image: torn(&saved, &scene.image, &mut random),
            table: Vec::new(),
            buffer: Vec::new(),
        };
        let mut both = Both::new(disk, library, guard);
        for _ in 0..CALLS_ON_A_DISK {
            let name = random_name(plan.kind, &both.before.image, 8, &mut random);
            let call = Call::Rescue { name };
            both.lend_buffer(buffer_for(&call, &mut random));
            let ending = both
                .make(&call)
                .map_err(|what| format!("torn disk {number}, {what}"))?;
            tally.note_as(TORN, ending.refusal);
        }
    }
    Ok(())
}

/// What a save cut short leaves: of each sector the old bytes, or one time in
/// two, three or four the new ones.
fn torn(old: &[u8], new: &[u8], random: &mut Random) -> Vec<u8> {
    let times = random.between(2, 4);
    let mut disk = old.to_vec();
    for (there, saved) in disk.chunks_mut(SECTOR).zip(new.chunks(SECTOR)) {
        if random.one_in(times) {
            there.copy_from_slice(saved);
        }
    }
    disk
}
