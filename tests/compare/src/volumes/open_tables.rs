//! Open tables with records of all sorts.

use super::plan::{File, Plan};
use super::random::Random;
use super::word;

/// Mostly a table as below; also one without an unused place, and any bytes.
pub fn any_table(plan: &Plan, random: &mut Random) -> Vec<u8> {
    let mut table = open_table(plan, random);
    match random.below(8) {
        0 => {
            for record in table.chunks_exact_mut(16) {
                fill_record(plan, record, random);
            }
        }
        1 => random.fill(&mut table),
        _ => {}
    }
    table
}

/// A table with many unused places, and few that are used from the beginning.
pub fn table_for_a_history(plan: &Plan, random: &mut Random) -> Vec<u8> {
    let mut table = vec![0; 16 * *random.pick(&[2, 8, 16, 16, 16, 18])];
    random.fill(&mut table);
    for record in table.chunks_exact_mut(16) {
        match random.one_in(8) {
            true => fill_record(plan, record, random),
            false => record[0] = 0,
        }
    }
    table
}

/// A table whose records name files, other slots, or nothing that is there.
pub fn open_table(plan: &Plan, random: &mut Random) -> Vec<u8> {
    let records = *random.pick(&[0, 1, 2, 5, 15, 16, 17, 20]);
    let rest = *random.pick(&[0, 0, 0, 1, 15]);
    let mut table = vec![0; 16 * records + rest];
    if random.one_in(4) {
        random.fill(&mut table);
    }
    for record in table.chunks_exact_mut(16) {
        match random.below(4) {
            0 => fill_record(plan, record, random),
            1 => record[0] = 0,
            _ => record.fill(0),
        }
    }
    table
}

fn fill_record(plan: &Plan, record: &mut [u8], random: &mut Random) {
    let any = random.below(plan.slots.len() + 2);
    let slot = match random.below(4) {
        0 => any,
        1 => random.choose(&slots(plan, true)).unwrap_or(any),
        _ => random.choose(&slots(plan, false)).unwrap_or(any),
    };
    let size = word(&plan.slots[slot % plan.slots.len()], 28);
    let pointer = match random.below(5) {
        0 => random.word() as u32,
        1 => size,
        2 => size.wrapping_add(random.below(3000) as u32),
        _ => random.below(size.min(400_000) as usize + 1) as u32,
    };
    record[0] = *random.pick(&[1, 1, 1, 2, 0xFF]);
    record[1] = *random.pick(&[0, 1, 2, 2, 3, 0xFF]);
    record[2] = *random.pick(&[0, 0, 1, 7]);
    record[4..8].copy_from_slice(&(slot as u32).to_le_bytes());
    record[8..12].copy_from_slice(&pointer.to_le_bytes());
}

/// The slots of all files, or only of those with spare clusters.
fn slots(plan: &Plan, with_spare: bool) -> Vec<usize> {
    let has_spare = |file: &&File| file.needed(plan.kind) < file.clusters.len();
    let files = plan.files.iter();
    let files = files.filter(|file| !with_spare || has_spare(file));
    files.map(|file| file.slot).collect()
}
