//! Sound volumes of all sorts.

use super::bad_or_reserved::{bad_or_reserved_value, reserved_value, BAD};
use super::plan::{File, Plan};
use super::random::Random;
use super::texts::{attribute, good_name, odd_stored_name, stored_form};
use crate::volume::kind::{Kind, KINDS};

/// A sound volume of any kind.
pub fn sound_plan(random: &mut Random) -> Plan {
    let kind = random.pick(&KINDS);
    sound_plan_of(kind, random)
}

/// A sound volume of this kind.
pub fn sound_plan_of(kind: &'static Kind, random: &mut Random) -> Plan {
    let mut plan = Plan::blank(kind);
    plan.noise = random.word() | 1;
    if random.one_in(2) {
        random.fill(&mut plan.table_rest);
    }
    if random.one_in(2) {
        put_junk_into_slots(&mut plan, random);
    }
    let mut pool = cluster_pool(kind, random);
    put_bad_or_reserved(&mut plan, &mut pool, random);
    fill_slots(&mut plan, &mut pool, random);
    plan
}

/// Never-used slots may hold anything after their first byte.
fn put_junk_into_slots(plan: &mut Plan, random: &mut Random) {
    for slot in &mut plan.slots {
        random.fill(&mut slot[1..]);
    }
}

/// The clusters in the order in which files take them, from the back.
fn cluster_pool(kind: &Kind, random: &mut Random) -> Vec<u16> {
    let mut pool: Vec<u16> = (2..=kind.last_cluster() as u16).rev().collect();
    match random.below(3) {
        0 => random.shuffle(&mut pool),
        1 => {
            // Some swaps leave long runs and a few jumps.
            for _ in 0..random.below(20) {
                let (a, b) = (random.below(pool.len()), random.below(pool.len()));
                pool.swap(a, b);
            }
        }
        _ => {}
    }
    pool
}

/// Some clusters become bad, or reserved, or some of them this and some that.
fn put_bad_or_reserved(plan: &mut Plan, pool: &mut Vec<u16>, random: &mut Random) {
    let count = *random.pick(&[0, 0, 1, 3, 40, 300]);
    let sort = random.below(3);
    for _ in 0..random.between(0, count) {
        let cluster = pool.swap_remove(random.below(pool.len()));
        plan.values[usize::from(cluster)] = match sort {
            0 => BAD,
            1 => reserved_value(random),
            _ => bad_or_reserved_value(random),
        };
    }
}

fn fill_slots(plan: &mut Plan, pool: &mut Vec<u16>, random: &mut Random) {
    let all = plan.slots.len();
    let some = random.between(1, 12);
    let many = random.below(all);
    let used = *random.pick(&[0, some, some, many, all]);
    let label = random.one_in(2).then(|| random.below(used.max(1)));
    let odd_ends = random.one_in(2);
    for slot in 0..used {
        if label == Some(slot) {
            put_label(plan, slot, random);
        } else if random.one_in(6) {
            random.fill(&mut plan.slots[slot]);
            plan.slots[slot][0] = 0xE5;
        } else {
            put_file(plan, pool, slot, odd_ends, random);
        }
    }
}

/// Puts an empty file into each slot that is erased or was never used.
pub fn fill_root(plan: &mut Plan, random: &mut Random) {
    for slot in 0..plan.slots.len() {
        if [0x00, 0xE5].contains(&plan.slots[slot][0]) {
            let name = new_name(plan, random);
            let file = File {
                slot,
                clusters: Vec::new(),
                content: Vec::new(),
            };
            plan.add_file(file, name, attribute(random), 0);
        }
    }
}

/// The label's bytes from 12 on mean nothing, its name may be a file's.
fn put_label(plan: &mut Plan, slot: usize, random: &mut Random) {
    let mut entry = [0; 32];
    random.fill(&mut entry);
    let name = match random.one_in(2) {
        true => stored_form(&good_name(random)),
        false => odd_stored_name(random),
    };
    entry[..11].copy_from_slice(&name);
    entry[11] = 0x08 | attribute(random);
    plan.slots[slot] = entry;
}

fn put_file(
    plan: &mut Plan,
    pool: &mut Vec<u16>,
    slot: usize,
    odd_ends: bool,
    random: &mut Random,
) {
    let name = new_name(plan, random);
    let size = file_size(plan.kind, pool.len(), random);
    let mut content = vec![0; size];
    random.fill_area(&mut content);
    let needed = size.div_ceil(plan.kind.cluster_bytes());
    let spare = spare_clusters(size, pool.len() - needed, random);
    let clusters = pool
        .split_off(pool.len() - needed - spare)
        .into_iter()
        .rev()
        .collect();
    let end = match odd_ends {
        true => 0xFF8 + random.below(8) as u16,
        false => 0xFFF,
    };
    // Reserved bytes and stamps hold anything.
    random.fill(&mut plan.slots[slot]);
    let file = File {
        slot,
        clusters,
        content,
    };
    plan.add_file(file, name, attribute(random), end);
}

/// A name that no planned file has.
fn new_name(plan: &Plan, random: &mut Random) -> [u8; 11] {
    loop {
        let name = match random.one_in(5) {
            true => odd_stored_name(random),
            false => stored_form(&good_name(random)),
        };
        let taken = |file: &File| plan.slots[file.slot][..11] == name;
        if !plan.files.iter().any(taken) {
            return name;
        }
    }
}

/// Nothing, a few bytes, whole clusters, one byte more, or anything.
fn file_size(kind: &Kind, room: usize, random: &mut Random) -> usize {
    let cluster = kind.cluster_bytes();
    let room = room * cluster;
    let most = (cluster * random.between(1, 8)).min(room);
    let size = match random.below(12) {
        0 | 1 => 0,
        2 => random.below(cluster),
        3 | 4 => most,
        5 => cluster + 1,
        6 => room,
        _ => random.between(0, most),
    };
    size.min(room)
}

/// How many clusters a file takes beyond those that its size needs: for one file
/// in three, or two in three of size 0, mostly a few, else none.
fn spare_clusters(size: usize, room: usize, random: &mut Random) -> usize {
    if random.one_in(3) != (size > 0) {
        return 0;
    }
    let few = random.between(1, 4);
    let many = random.between(5, 60);
    (*random.pick(&[few, few, few, many])).min(room)
}
