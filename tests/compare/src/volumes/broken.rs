//! Volumes broken on purpose, with the place that check must find.
//!
//! Each break starts from a sound plan, or from one that has later findings
//! only, and answers the place of its own finding. It answers `None` where
//! the volume lacks what is to be broken.

use super::bad_or_reserved::{bad_or_reserved_value, BAD, HIGHEST_RESERVED, LOWEST_RESERVED};
use super::plan::Plan;
use super::random::Random;
use crate::volume::kind::{Kind, SECTOR};

/// Findings 3 to 7.
pub fn break_plan(plan: &mut Plan, finding: u32, random: &mut Random) -> Option<usize> {
    match finding {
        3 => Some(spoil_values(plan, random)),
        4 => spoil_slots(plan, random),
        5 => spoil_chain(plan, random),
        6 => share_clusters(plan, random),
        7 => lose_clusters(plan, random),
        _ => None,
    }
}

/// Finding 1: a wrong length or a byte 512 of no kind, or of another.
pub fn break_kind(image: &mut Vec<u8>, random: &mut Random) {
    let byte = image[SECTOR];
    match random.below(4) {
        0 => image.truncate(random.below(image.len())),
        1 => image.extend(vec![0; random.between(1, 1024)]),
        2 => image[SECTOR] = byte ^ *random.pick(&[1, 2, 3]),
        _ => image[SECTOR] = random.below(0xFC) as u8,
    }
}

/// Finding 2: marks of copy 1 spoilt, or copies that differ.
pub fn break_copies(kind: &Kind, image: &mut [u8], random: &mut Random) -> usize {
    let first = kind.copy_at(0);
    let second = kind.copy_at(1);
    if random.one_in(4) {
        let mark = random.between(1, 2);
        let byte = random.below(0xFF) as u8;
        image[first + mark] = byte;
        if random.one_in(2) {
            image[second + mark] = byte;
        }
        return mark;
    }
    let places = random.between(1, 3);
    let spoilt = (0..places).map(|_| {
        let at = random.below(kind.fat_bytes());
        // Byte 0 of copy 1 is the kind, so copy 2 is the one to differ.
        image[second + at] = !image[first + at];
        at
    });
    spoilt.min().unwrap_or(0)
}

/// Finding 3: values that mean nothing.
fn spoil_values(plan: &mut Plan, random: &mut Random) -> usize {
    let last = plan.kind.last_cluster();
    let places = random.between(1, 3);
    let spoilt = (0..places).map(|_| {
        let cluster = random.between(2, last);
        let between = random.between(last + 1, 0xFEF);
        plan.values[cluster] = *random.pick(&[1, last + 1, 0xFEF, between]) as u16;
        cluster
    });
    spoilt.min().unwrap_or(0)
}

/// The slots of live entries.
fn live_slots(plan: &Plan) -> Vec<usize> {
    let live = |&slot: &usize| ![0x00, 0xE5].contains(&plan.slots[slot][0]);
    (0..plan.slots.len()).filter(live).collect()
}

/// Finding 4.
fn spoil_slots(plan: &mut Plan, random: &mut Random) -> Option<usize> {
    match random.below(5) {
        0 => use_after_never_used(plan, random),
        1 => {
            let slot = random.choose(&live_slots(plan))?;
            plan.slots[slot][0] = 0x2E;
            Some(slot)
        }
        2 => {
            let slot = random.choose(&live_slots(plan))?;
            plan.slots[slot][11] |= random.pick(&[0x10, 0x40, 0x80]);
            Some(slot)
        }
        3 => label_twice(plan, random),
        _ => name_twice(plan, random),
    }
}

fn use_after_never_used(plan: &mut Plan, random: &mut Random) -> Option<usize> {
    let end = plan.slots.iter().position(|slot| slot[0] == 0)?;
    let slot = random.choose(&(end + 1..plan.slots.len()).collect::<Vec<_>>())?;
    plan.slots[slot][0] = *random.pick(&[0xE5, b'A', 0x2E, 0x01]);
    Some(slot)
}

fn label_twice(plan: &mut Plan, random: &mut Random) -> Option<usize> {
    let live = live_slots(plan);
    let is_label = |slot: &usize| plan.slots[*slot][11] & 0x08 != 0;
    let first = live
        .iter()
        .copied()
        .find(is_label)
        .or(random.choose(&live))?;
    let others: Vec<usize> = live.into_iter().filter(|&slot| slot != first).collect();
    let second = random.choose(&others)?;
    plan.slots[first][11] |= 0x08;
    plan.slots[second][11] |= 0x08;
    Some(first.max(second))
}

fn name_twice(plan: &mut Plan, random: &mut Random) -> Option<usize> {
    let slots: Vec<usize> = plan.files.iter().map(|file| file.slot).collect();
    let from = random.choose(&slots)?;
    let others: Vec<usize> = slots.into_iter().filter(|&slot| slot != from).collect();
    let to = random.choose(&others)?;
    let name = plan.slots[from];
    plan.slots[to][..11].copy_from_slice(&name[..11]);
    Some(from.max(to))
}

/// The files that have clusters, by their number in the plan.
fn holders(plan: &Plan) -> Vec<usize> {
    let holds = |&index: &usize| !plan.files[index].clusters.is_empty();
    (0..plan.files.len()).filter(holds).collect()
}

/// Finding 5: one file's start, size or chain made wrong.
fn spoil_chain(plan: &mut Plan, random: &mut Random) -> Option<usize> {
    if plan.files.is_empty() {
        return None;
    }
    let index = random.below(plan.files.len());
    let has_chain = !plan.files[index].clusters.is_empty();
    match random.below(4) {
        0 => spoil_size(plan, index, random),
        1 => spoil_start(plan, index, random),
        _ if has_chain => spoil_link(plan, index, random),
        _ => start_without_end(plan, index, random)?,
    }
    Some(plan.files[index].slot)
}

fn set_start(plan: &mut Plan, index: usize, start: u16) {
    let slot = plan.files[index].slot;
    plan.slots[slot][26..28].copy_from_slice(&start.to_le_bytes());
}

/// A start from which there is no chain, or one that is too short.
fn spoil_start(plan: &mut Plan, index: usize, random: &mut Random) {
    let file = &plan.files[index];
    let last = plan.kind.last_cluster() as u16;
    let start = file.clusters.first().copied().unwrap_or(last);
    let mut starts = vec![
        last + 1,
        LOWEST_RESERVED,
        HIGHEST_RESERVED,
        BAD,
        0xFF8,
        0xFFF,
        0xFFFF,
        start | 0x1000,
        start | 0x8000,
    ];
    let has_spare = file.needed(plan.kind) < file.clusters.len();
    starts.extend(file.clusters.get(1).filter(|_| !has_spare));
    starts.extend(random.choose(&plan.free_clusters()));
    let is_bad_or_reserved =
        |&n: &u16| (LOWEST_RESERVED..=BAD).contains(&plan.values[usize::from(n)]);
    let bad_or_reserved: Vec<u16> = (2..=last).filter(is_bad_or_reserved).collect();
    starts.extend(random.choose(&bad_or_reserved));
    // Size 0 may have start 0, but not 1.
    let lowest = u16::from(file.content.is_empty());
    let other = *random.pick(&starts);
    set_start(plan, index, *random.pick(&[lowest, 1, other]));
}

/// A size that needs more clusters than there are in the chain, or one that is
/// right only if its clusters are counted in too few bits.
fn spoil_size(plan: &mut Plan, index: usize, random: &mut Random) {
    let file = &plan.files[index];
    let bytes = plan.kind.cluster_bytes() as u32;
    let held = file.clusters.len() as u32 * bytes;
    let sizes = [held + 1, held + bytes, held + 0x1_0000 * bytes, u32::MAX];
    plan.slots[file.slot][28..32].copy_from_slice(&random.pick(&sizes).to_le_bytes());
}

/// A chain that ends too early, is broken, or runs in a circle. At its last
/// cluster, behind as many as the size needs, as often as anywhere.
fn spoil_link(plan: &mut Plan, index: usize, random: &mut Random) {
    let file = &plan.files[index];
    let last = file.clusters.len() - 1;
    let any = random.below(last + 1);
    let place = *random.pick(&[last, any]);
    let met_before = *random.pick(&file.clusters[..=place]);
    let mut values = vec![0, bad_or_reserved_value(random), met_before, met_before];
    values.extend(random.choose(&plan.free_clusters()));
    if place + 1 < file.needed(plan.kind) {
        values.extend([0xFF8, 0xFFF]);
    }
    plan.values[usize::from(file.clusters[place])] = *random.pick(&values);
}

/// A start for a file without one: some free clusters that name each other, and
/// the last of them is left free, bad or reserved, or names one before it.
fn start_without_end(plan: &mut Plan, index: usize, random: &mut Random) -> Option<()> {
    let mut clusters = plan.free_clusters();
    random.shuffle(&mut clusters);
    clusters.truncate(random.between(1, 3));
    let (&first, &last) = (clusters.first()?, clusters.last()?);
    for pair in clusters.windows(2) {
        plan.values[usize::from(pair[0])] = pair[1];
    }
    let met_before = *random.pick(&clusters);
    let values = [0, bad_or_reserved_value(random), met_before];
    plan.values[usize::from(last)] = *random.pick(&values);
    set_start(plan, index, first);
    Some(())
}

/// Finding 6: one file's last clusters become another's too, behind some of its
/// own. Both may have them as spare ones, or one of them, or neither.
fn share_clusters(plan: &mut Plan, random: &mut Random) -> Option<usize> {
    let giver = random.choose(&holders(plan))?;
    let others = (0..plan.files.len()).filter(|&index| index != giver);
    let taker = random.choose(&others.collect::<Vec<_>>())?;
    let shared = some_last_clusters(plan, giver, random);
    let file = &plan.files[taker];
    let least = file.needed(plan.kind).saturating_sub(shared.len());
    let all = file.clusters.len();
    let enough = random.between(least, all);
    let kept = *random.pick(&[all, enough, least, least]);
    let (kept, dropped) = file.clusters.split_at(kept);
    if random.one_in(2) {
        for &cluster in dropped {
            plan.values[usize::from(cluster)] = 0;
        }
    }
    match kept.last() {
        Some(&last) => plan.values[usize::from(last)] = shared[0],
        None => set_start(plan, taker, shared[0]),
    }
    shared.into_iter().min().map(usize::from)
}

/// Some of the file's last clusters; half of the time only spare ones, where it
/// has them.
fn some_last_clusters(plan: &Plan, index: usize, random: &mut Random) -> Vec<u16> {
    let file = &plan.files[index];
    let all = file.clusters.len();
    let most = match all - file.needed(plan.kind) {
        spare if spare > 0 && random.one_in(2) => spare,
        _ => all,
    };
    file.clusters[all - random.between(1, most)..].to_vec()
}

/// Finding 7: clusters in use by no file.
fn lose_clusters(plan: &mut Plan, random: &mut Random) -> Option<usize> {
    match random.below(3) {
        0 => shorten_file(plan, random),
        1 => erase_file(plan, random),
        _ => use_free_clusters(plan, random),
    }
}

fn use_free_clusters(plan: &mut Plan, random: &mut Random) -> Option<usize> {
    let last = plan.kind.last_cluster();
    let mut free = plan.free_clusters();
    random.shuffle(&mut free);
    free.truncate(random.between(1, 3));
    for &cluster in &free {
        let link = random.between(2, last) as u16;
        let end = 0xFF8 + random.below(8) as u16;
        plan.values[usize::from(cluster)] = *random.pick(&[link, cluster, end]);
    }
    free.into_iter().min().map(usize::from)
}

/// The file's chain ends early, or is gone, and the size is cut to what is left
/// of it; the rest of the chain is left over.
fn shorten_file(plan: &mut Plan, random: &mut Random) -> Option<usize> {
    let index = random.choose(&holders(plan))?;
    let file = &mut plan.files[index];
    let kept = random.below(file.clusters.len());
    let lost = file.clusters.split_off(kept);
    file.content.truncate(kept * plan.kind.cluster_bytes());
    plan.store_file(index, 0xFFF);
    lost.into_iter().min().map(usize::from)
}

/// The file's slot is erased, its clusters stay in use.
fn erase_file(plan: &mut Plan, random: &mut Random) -> Option<usize> {
    let index = random.choose(&holders(plan))?;
    let file = plan.files.remove(index);
    plan.slots[file.slot][0] = 0xE5;
    file.clusters.into_iter().min().map(usize::from)
}
