//! Generated volumes: what check finds is known from how they were made.

mod common;

use std::ops::RangeInclusive;

use common::{halves, letter, words, Desk};
use compare::volume::answer::number;
use compare::volume::check::{examined_image, examined_system_area, Counts, Sound};
use compare::volume::kind::{Kind, KINDS};
use compare::volume::{check, check_system};
use compare::volumes::bad_or_reserved::{sorts, SORTS};
use compare::volumes::broken::{break_copies, break_kind, break_plan};
use compare::volumes::chains;
use compare::volumes::damage::{flip_byte, flip_root_byte, flip_table_byte, lengths};
use compare::volumes::mixed::mixed_image;
use compare::volumes::plan::{File, Plan};
use compare::volumes::random::Random;
use compare::volumes::sound::{sound_plan, sound_plan_of};

const ROUNDS: u64 = 400;

/// What the plan says that check must count.
fn planned_counts(plan: &Plan) -> Counts {
    let clusters = |values: RangeInclusive<u16>| {
        let wanted = plan.values.iter().filter(|&value| values.contains(value));
        wanted.count() as u32
    };
    Counts {
        files: plan.files.len() as u32,
        free: plan.free_clusters().len() as u32,
        held: plan
            .files
            .iter()
            .map(|file| file.clusters.len() as u32)
            .sum(),
        bad: clusters(0xFF7..=0xFF7),
        reserved: clusters(0xFF0..=0xFF6),
    }
}

/// Check's answer on the image and on its system area, which must agree.
fn found(kind: &Kind, image: &[u8]) -> (u32, u32) {
    let whole = check(image, &mut []);
    assert_eq!(check_system(image, &mut []), whole);
    assert_eq!(check_system(&image[..kind.system_bytes()], &mut []), whole);
    halves(whole)
}

#[test]
fn sound_volumes_of_each_kind_are_sound_with_their_counts() {
    for kind in &KINDS {
        for seed in 0..ROUNDS {
            let plan = sound_plan_of(kind, &mut Random::new(seed));
            let image = plan.image();
            let counts = planned_counts(&plan);
            let mut out = [0xAA; 22];
            assert_eq!(found(kind, &image), (0, 0), "seed {seed}");
            assert_eq!(check(&image, &mut out), 0);
            let Counts {
                files,
                free,
                held,
                bad,
                reserved,
            } = counts;
            assert_eq!(words(&out), [files, free, held, bad, reserved]);
            assert_eq!(out[20..], [0xAA; 2]);
            assert_eq!(free + held + bad + reserved, kind.clusters() as u32);
            assert_eq!(letter::check_area(kind, &image), Ok(counts));
        }
    }
}

/// The features of a plan that a sound volume may or may not have.
fn features(plan: &Plan) -> Vec<bool> {
    let is_live = |slot: &&[u8; 32]| slot[0] != 0 && slot[0] != 0xE5;
    let any_live = |test: fn(&[u8; 32]) -> bool| plan.slots.iter().filter(is_live).any(test);
    let any_value = |low, high| plan.values.iter().any(|value| (low..=high).contains(value));
    let any_file = |test: fn(usize, &File) -> bool| {
        let mut files = plan.files.iter();
        files.any(|file| test(file.needed(plan.kind), file))
    };
    let jumps = |pair: &[u16]| pair[1] != pair[0] + 1;
    let last = plan.kind.last_cluster() + 1;
    let mut features = vec![
        plan.files
            .iter()
            .any(|file| file.clusters.windows(2).any(jumps)),
        any_live(|slot| slot[11] & 0x08 != 0),
        plan.slots.iter().any(|slot| slot[0] == 0xE5),
        any_live(|slot| slot[11] & 0x09 == 0x01),
        any_live(|slot| slot[11] & 0x0E == 0x06),
        any_value(0xFF8, 0xFFE),
        any_value(0xFF1, 0xFF5),
        plan.table_rest[last * 3 / 2 + 1..]
            .iter()
            .any(|&byte| byte != 0),
        any_live(|slot| slot[..11].iter().any(|byte| !byte.is_ascii_graphic())),
        any_live(|slot| slot[11] & 0x08 == 0 && slot[24] & 0x1F == 0),
        plan.slots.iter().all(|slot| slot[0] != 0),
        plan.files.is_empty(),
        plan.free_clusters().is_empty(),
        any_file(|needed, file| 0 < needed && needed + 1 == file.clusters.len()),
        any_file(|needed, file| 0 < needed && needed + 4 < file.clusters.len()),
        any_file(|needed, file| needed == 0 && !file.clusters.is_empty()),
        any_file(|needed, file| needed == 0 && file.clusters.is_empty()),
    ];
    features.extend(sorts(&plan.values));
    features
}

#[test]
fn sound_volumes_show_all_features() {
    for kind in &KINDS {
        let mut times = [0; 17 + SORTS.len()];
        for seed in 0..ROUNDS {
            let features = features(&sound_plan_of(kind, &mut Random::new(seed)));
            assert_eq!(features.len(), times.len());
            for (times, shown) in times.iter_mut().zip(features) {
                *times += u32::from(shown);
            }
        }
        assert!(times.iter().all(|&times| times >= 10), "{times:?}");
    }
}

/// The comparison counts these sorts.
#[test]
fn sorts_of_bad_and_reserved_clusters() {
    let named = |values: &[u16]| {
        let sorts = SORTS.iter().zip(sorts(values));
        let names: Vec<&str> = sorts.filter(|(_, is)| *is).map(|(name, _)| *name).collect();
        names.join(", ")
    };
    assert_eq!(named(&[]), "");
    assert_eq!(named(&[0x000, 0x002, 0xFEF, 0xFF8, 0xFFF]), "");
    assert_eq!(named(&[0, 0xFF7, 0xFF7]), "bad only, FF7");
    assert_eq!(named(&[0xFF1, 0xFF5]), "reserved only");
    assert_eq!(named(&[0xFF6]), "reserved only, FF6");
    assert_eq!(named(&[0xFF7, 0xFF3]), "both, FF7");
    assert_eq!(named(&[0xFF0, 0xFF6, 0xFF7]), "both, FF0, FF6, FF7");
}

/// FE: LONG with clusters 2, 3 and 4 in slot 0, SHORT with 5 in slot 1.
fn long_and_short() -> Desk {
    let mut desk = Desk::new(0xFE);
    desk.put("LONG", &[1; 1536]);
    desk.put("SHORT", &[2; 512]);
    desk
}

type Change = fn(&mut Desk);

/// SHORT has size 0, and its cluster names this one.
fn empty_short(desk: &mut Desk, next: u16) {
    desk.slot(1)[29] = 0;
    desk.set_value(5, next);
}

/// Cluster 4 is spare in LONG, and in SHORT too.
fn both_spare(desk: &mut Desk) {
    desk.slot(0)[29] = 4;
    desk.set_value(5, 4);
}

/// The sort of the volume after a change of the two files.
fn sort_after(change: Change) -> String {
    let mut desk = long_and_short();
    change(&mut desk);
    let (finding, place) = desk.check();
    let sorts = chains::sorts(desk.kind(), &desk.image, finding, place);
    let named = chains::SORTS.iter().zip(sorts).filter(|(_, is)| *is);
    named.map(|(name, _)| *name).collect::<Vec<_>>().join("; ")
}

/// The comparison counts these sorts.
#[test]
fn sorts_of_chains() {
    let [spare, size_0, start_0, start_1, past, endless, short, ring, nowhere, both, one] =
        chains::SORTS;
    let cases: [(Change, &str); 21] = [
        (|_| (), ""),
        (|desk| desk.slot(0)[29] = 4, spare),
        (|desk| desk.slot(0)[29] = 0, size_0),
        (|desk| desk.slot(0)[26] = 0, start_0),
        (
            |desk| desk.slot(1)[26..30].copy_from_slice(&[1, 0, 0, 0]),
            start_1,
        ),
        (|desk| desk.slot(1)[26] = 1, ""),
        (|desk| desk.slot(1)[27] = 16, past),
        (
            |desk| desk.slot(1)[26..30].copy_from_slice(&[9, 0, 0, 0]),
            endless,
        ),
        (|desk| empty_short(desk, 5), endless),
        (|desk| desk.slot(0)[26] = 3, short),
        (|desk| desk.slot(0)[29] = 7, short),
        (|desk| desk.set_value(4, 2), ring),
        (|desk| desk.set_value(3, 2), ""),
        (|desk| desk.set_value(4, 0xFF7), nowhere),
        (|desk| desk.set_value(4, 9), nowhere),
        (|desk| desk.set_value(3, 0), ""),
        (|desk| empty_short(desk, 4), one),
        (|desk| desk.set_value(5, 4), one),
        (both_spare, both),
        (|desk| desk.slot(1)[26] = 4, ""),
        (|desk| desk.set_value(200, 0xFFF), ""),
    ];
    for (number, (change, sort)) in cases.into_iter().enumerate() {
        assert_eq!(sort_after(change), sort, "case {number}");
    }
}

/// The seeds of the comparison have volumes of each of these sorts, at least
/// one in a thousand.
#[test]
fn mixed_volumes_have_chains_of_each_sort() {
    let count = 3000;
    let mut times = [0; chains::SORTS.len()];
    for seed in 0..count {
        let image = mixed_image(seed);
        let (finding, place) = halves(check(&image, &mut []));
        if let Some(kind) = Kind::of_image(&image) {
            let sorts = chains::sorts(kind, &image, finding, place);
            for (times, is) in times.iter_mut().zip(sorts) {
                *times += u64::from(is);
            }
        }
    }
    assert!(times.iter().all(|&times| times >= count / 500), "{times:?}");
}

#[test]
fn volumes_of_no_kind_are_finding_1() {
    for seed in 0..ROUNDS {
        let mut random = Random::new(seed);
        let mut image = sound_plan(&mut random).image();
        break_kind(&mut image, &mut random);
        assert_eq!(halves(check(&image, &mut [])), (1, 0), "seed {seed}");
    }
}

#[test]
fn copies_that_differ_are_finding_2() {
    for seed in 0..ROUNDS {
        let mut random = Random::new(seed);
        let plan = sound_plan(&mut random);
        let mut image = plan.image();
        let place = break_copies(plan.kind, &mut image, &mut random);
        assert_eq!(found(plan.kind, &image), (2, place as u32), "seed {seed}");
    }
}

#[test]
fn broken_volumes_show_their_finding_and_place() {
    for finding in 3..=7 {
        let mut tried = 0;
        for seed in 0..3 * ROUNDS {
            let mut random = Random::new(seed);
            let mut plan = sound_plan(&mut random);
            if let Some(place) = break_plan(&mut plan, finding, &mut random) {
                let found = found(plan.kind, &plan.image());
                assert_eq!(found, (finding, place as u32), "seed {seed}");
                tried += 1;
            }
        }
        assert!(tried >= ROUNDS, "finding {finding} was tried {tried} times");
    }
}

/// A later break first, then an earlier one: the earlier is found.
#[test]
fn the_first_finding_wins() {
    let pairs = [
        (3, 4),
        (3, 5),
        (3, 6),
        (3, 7),
        (4, 5),
        (4, 6),
        (4, 7),
        (5, 7),
        (6, 7),
    ];
    for (earlier, later) in pairs {
        for seed in 0..ROUNDS {
            let mut random = Random::new(seed);
            let mut plan = sound_plan(&mut random);
            break_plan(&mut plan, later, &mut random);
            if let Some(place) = break_plan(&mut plan, earlier, &mut random) {
                let mut image = plan.image();
                let expected = (earlier, place as u32);
                assert_eq!(found(plan.kind, &image), expected, "seed {seed}");
                let place = break_copies(plan.kind, &mut image, &mut random);
                assert_eq!(found(plan.kind, &image), (2, place as u32), "seed {seed}");
            }
        }
    }
}

/// Check as each finding's sentence has it, on an image of a kind.
fn assert_as_by_the_letter(image: &[u8], seed: u64) {
    let by_letter = match Kind::of_image(image) {
        Some(kind) => letter::check_area(kind, image),
        None => Err((1, 0)),
    };
    let ours = examined_image(image);
    let ours = ours
        .map(|Sound { counts, .. }| counts)
        .map_err(|f| (f.number, f.place));
    assert_eq!(ours, by_letter, "seed {seed}");
}

#[test]
fn flipped_bytes_show_what_the_letter_says() {
    for seed in 0..10 * ROUNDS {
        let mut random = Random::new(seed);
        let plan = sound_plan(&mut random);
        let mut image = plan.image();
        for _ in 0..random.between(1, 4) {
            match random.below(4) {
                0 => flip_byte(plan.kind, &mut image, &mut random),
                1 => flip_root_byte(plan.kind, &mut image, &mut random),
                _ => flip_table_byte(plan.kind, &mut image, &mut random),
            }
            assert_as_by_the_letter(&image, seed);
        }
    }
}

#[test]
fn each_byte_of_a_system_area_flipped() {
    for (seed, kind) in (0..).zip(&KINDS) {
        let mut random = Random::new(seed);
        let mut image = sound_plan_of(kind, &mut random).image();
        for at in 0..kind.system_bytes() {
            let bits = random.between(1, 255) as u8;
            image[at] ^= bits;
            assert_as_by_the_letter(&image, seed);
            image[at] ^= bits;
        }
    }
}

/// Many breaks at once, whatever comes of them.
#[test]
fn broken_heaps_show_what_the_letter_says() {
    for seed in 0..5 * ROUNDS {
        let mut random = Random::new(seed);
        let mut plan = sound_plan(&mut random);
        for _ in 0..random.between(1, 6) {
            let finding = random.between(5, 7) as u32;
            break_plan(&mut plan, finding, &mut random);
            assert_as_by_the_letter(&plan.image(), seed);
        }
    }
}

/// Chains that run together everywhere: each cluster names one above it, or one
/// of them one below, and files start anywhere. Most sizes need as many clusters
/// as the chain has, or one or two fewer; a few one too many.
fn tangled_plan(random: &mut Random) -> Plan {
    let mut plan = Plan::blank(random.pick(&KINDS));
    let last = plan.kind.last_cluster();
    let farthest = random.between(1, 40);
    for cluster in 2..=last {
        let next = cluster + random.between(1, farthest);
        plan.values[cluster] = if next <= last { next as u16 } else { 0xFFF };
    }
    if random.one_in(4) {
        let cluster = random.between(2, last);
        plan.values[cluster] = random.between(2, cluster) as u16;
    }
    for slot in 0..random.between(2, plan.slots.len()) {
        let start = random.between(2, last);
        let length = length_from(&plan, start);
        let other = length.saturating_sub(random.between(1, 2));
        let one_more = length + usize::from(random.one_in(100));
        let needed = *random.pick(&[one_more, one_more, other]);
        let size = (needed * plan.kind.cluster_bytes()) as u32;
        let entry = &mut plan.slots[slot];
        entry[..11].copy_from_slice(format!("F{slot:<10}").as_bytes());
        entry[26..28].copy_from_slice(&(start as u16).to_le_bytes());
        entry[28..32].copy_from_slice(&size.to_le_bytes());
    }
    plan
}

/// How many clusters come one after the other, at most all of them.
fn length_from(plan: &Plan, start: usize) -> usize {
    let next = |&cluster: &usize| Some(usize::from(plan.values[cluster])).filter(|&n| n < 0xFF8);
    let clusters = std::iter::successors(Some(start), next);
    clusters.take(plan.kind.clusters()).count()
}

#[test]
fn chains_that_run_together_show_what_the_letter_says() {
    let mut findings = [0; 8];
    for seed in 0..2 * ROUNDS {
        let image = tangled_plan(&mut Random::new(seed)).image();
        assert_as_by_the_letter(&image, seed);
        findings[number(check(&image, &mut [])) as usize] += 1;
    }
    assert!(findings[5] >= 100 && findings[6] >= 100, "{findings:?}");
}

#[test]
fn lengths_decide_the_kind() {
    for kind in &KINDS {
        let plan = sound_plan_of(kind, &mut Random::new(7));
        let mut image = plan.image();
        image.push(0);
        for length in lengths(kind) {
            let area = &image[..length];
            let whole = if length == kind.image_bytes() { 0 } else { 1 };
            let system = if length >= kind.system_bytes() { 0 } else { 1 };
            assert_eq!(halves(check(area, &mut [])), (whole, 0));
            assert_eq!(halves(check_system(area, &mut [])), (system, 0));
            assert_eq!(examined_system_area(area).is_ok(), system == 0);
        }
    }
}
