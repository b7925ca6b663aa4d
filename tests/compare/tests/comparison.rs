//! The comparison itself: it passes a library that is right, and tells each
//! fault of one that is not.

use std::sync::atomic::{AtomicU64, Ordering::Relaxed};
use std::sync::OnceLock;

use compare::comparison::deeds::{altered_file, DEEDS};
use compare::comparison::files::{After, Files};
use compare::comparison::guarded::{Guarded, GUARD};
use compare::comparison::lines::{allows, LINES};
use compare::comparison::search::compare_search;
use compare::comparison::seeds::over_seeds;
use compare::comparison::tally::{rows, Tally};
use compare::comparison::{compare_seed, history, singles, Library, CALLS_OF_A_SEED};
use compare::volume::answer::{number, packed};
use compare::volume::kind::{Kind, KINDS};
use compare::volume::table::set_in_both;
use compare::volume::{check_system, find};
use compare::volumes::calls::{perform, Call, Scene};
use compare::volumes::chains::{self, Chain};
use compare::volumes::finds::Search;
use compare::volumes::plan::{File, Plan};
use compare::volumes::random::Random;
use compare::volumes::random_calls::buffer_for;
use compare::volumes::scenes::history_scene;
use compare::volumes::texts::callers_form;
use compare::volumes::word;

const SEEDS: u64 = 20;

/// The plain Rust stands for the library.
fn without_fault(call: &Call, scene: &mut Scene<Guarded>) -> u64 {
    perform(call, scene)
}

#[test]
fn the_same_code_passes_and_meets_all_lines() {
    let work = |seed| compare_seed(seed, without_fault, GUARD);
    let tally = over_seeds(0..SEEDS, work, Tally::add).expect("the same code on both sides");
    assert_eq!(tally.calls(), SEEDS * CALLS_OF_A_SEED);
    assert_eq!(tally.faults(), Vec::<String>::new());
}

/// The first report over some seeds.
fn report(library: Library) -> String {
    let compare = |seed| compare_seed(seed, library, GUARD).err();
    (0..SEEDS).find_map(compare).unwrap_or_default()
}

/// The same of the histories alone.
fn report_of_histories(library: Library) -> String {
    let compare = |seed| history::compare(seed, library, GUARD, &mut Tally::default()).err();
    (0..SEEDS).find_map(compare).unwrap_or_default()
}

/// The same of the single calls alone.
fn report_of_singles(library: Library) -> String {
    let compare = |seed| singles::compare(seed, library, GUARD, &mut Tally::default()).err();
    (0..SEEDS).find_map(compare).unwrap_or_default()
}

/// Only reading back uses a table of one record.
const READING_TABLE: usize = 16;

/// A fault in each sort of thing that is compared.
const FAULTS: [(&str, Library); 6] = [
    ("expected", |call, scene| match perform(call, scene) {
        answer if answer >> 32 == 42 => 43 << 32,
        answer => answer,
    }),
    ("the table differs", |call, scene| {
        let answer = perform(call, scene);
        if let (Call::Read { handle }, 0) = (call, answer >> 32) {
            scene.table[16 * *handle as usize + 8] ^= 1;
        }
        answer
    }),
    ("the image differs", |call, scene| {
        let answer = perform(call, scene);
        if let (Call::Delete { .. }, 0) = (call, answer) {
            scene.image[0] ^= 1;
        }
        answer
    }),
    ("the buffer differs", |call, scene| {
        let before = scene.buffer.to_vec();
        let answer = perform(call, scene);
        if let (Call::Read { .. }, false) = (call, scene.table.len() == READING_TABLE) {
            scene.buffer.copy_from_slice(&before);
        }
        answer
    }),
    ("a guard byte at -1 of the image", |call, scene| {
        scene.image.with_guards()[GUARD - 1] = 0;
        perform(call, scene)
    }),
    ("of the table's", |call, scene| {
        if let (Call::Close { .. }, Some(last)) = (call, scene.table.with_guards().last_mut()) {
            *last = 0;
        }
        perform(call, scene)
    }),
];

#[test]
fn each_sort_of_fault_is_told() {
    for (told, library) in FAULTS {
        let report = report(library);
        assert!(report.contains(told), "{told}: {report}");
        let report = report_of_histories(library);
        assert!(report.starts_with("history, call "), "{report}");
    }
}

/// The plain Rust, but this byte of check's counts is wrong when files are read
/// back.
fn count_misread(call: &Call, scene: &mut Scene<Guarded>, at: usize) -> u64 {
    let answer = perform(call, scene);
    if let (Call::Check, READING_TABLE) = (call, scene.table.len()) {
        scene.buffer[at] ^= 1;
    }
    answer
}

const FAULTS_OF_READING: [(&str, Library); 5] = [
    ("the content by the history differs", |call, scene| {
        let answer = perform(call, scene);
        if let (Call::Read { .. }, READING_TABLE, true) = (call, scene.table.len(), answer > 0) {
            scene.buffer[0] ^= 1;
        }
        answer
    }),
    ("open answers 4/0", |call, scene| {
        match (call, scene.table.len()) {
            (Call::Open { .. }, READING_TABLE) => 4 << 32,
            _ => perform(call, scene),
        }
    }),
    ("check answers 0/0 and counts", |call, scene| {
        count_misread(call, scene, 4)
    }),
    ("check answers 0/0 and counts", |call, scene| {
        count_misread(call, scene, 12)
    }),
    ("check answers 0/0 and counts", |call, scene| {
        count_misread(call, scene, 16)
    }),
];

#[test]
fn files_are_compared_by_reading() {
    for (told, library) in FAULTS_OF_READING {
        let report = report_of_histories(library);
        let call = report.strip_prefix("history, call ");
        let call = call.and_then(|rest| rest.split(',').next()?.parse::<u64>().ok());
        assert!(call.is_some_and(|call| call % 50 == 0), "{report}");
        assert!(report.contains(told), "{told}: {report}");
    }
}

/// The plain Rust, but the counts that check puts are altered.
fn counts_altered(call: &Call, scene: &mut Scene<Guarded>, alter: fn(&mut [u32; 5])) -> u64 {
    let answer = perform(call, scene);
    let put = scene.buffer.get_mut(..20);
    if let (Call::Check | Call::CheckSystem, 0, Some(put)) = (call, answer, put) {
        let mut counts = [0, 4, 8, 12, 16].map(|at| word(put, at));
        alter(&mut counts);
        put.copy_from_slice(counts.map(u32::to_le_bytes).as_flattened());
    }
    answer
}

/// The plain Rust, but check puts so many bytes of its counts where `out` is
/// this long.
fn counts_cut(
    call: &Call,
    scene: &mut Scene<Guarded>,
    bytes: fn(out: usize) -> Option<usize>,
) -> u64 {
    let before = scene.buffer.to_vec();
    let answer = perform(call, scene);
    let bytes = bytes(before.len());
    if let (Call::Check | Call::CheckSystem, 0, Some(bytes)) = (call, answer, bytes) {
        let mut counts = [0; 20];
        check_system(&scene.image, &mut counts);
        scene.buffer.copy_from_slice(&before);
        scene.buffer[..bytes].copy_from_slice(&counts[..bytes]);
    }
    answer
}

const FAULTS_OF_CHECK: [(&str, Library); 8] = [
    ("FF7 counted as reserved", |call, scene| {
        counts_altered(call, scene, |counts| {
            counts[4] += counts[3];
            counts[3] = 0;
        })
    }),
    ("FF0 to FF6 counted as bad", |call, scene| {
        counts_altered(call, scene, |counts| {
            counts[3] += counts[4];
            counts[4] = 0;
        })
    }),
    ("both counted into each", |call, scene| {
        counts_altered(call, scene, |counts| {
            let both = counts[3] + counts[4];
            counts[3..].fill(both);
        })
    }),
    ("bad and reserved exchanged", |call, scene| {
        counts_altered(call, scene, |counts| counts.swap(3, 4))
    }),
    ("16 bytes in an out of 16 to 19", |call, scene| {
        counts_cut(call, scene, |out| (16..20).contains(&out).then_some(16))
    }),
    ("16 bytes in any longer out", |call, scene| {
        counts_cut(call, scene, |out| (20 <= out).then_some(16))
    }),
    ("as many bytes as a short out has", |call, scene| {
        counts_cut(call, scene, |out| (out < 20).then_some(out))
    }),
    ("20 bytes are too few", |call, scene| {
        counts_cut(call, scene, |out| (out == 20).then_some(0))
    }),
];

#[test]
fn faults_of_check_are_told() {
    for (fault, library) in FAULTS_OF_CHECK {
        let report = report_of_singles(library);
        assert!(report.contains(" check"), "{fault}: {report}");
        assert!(report.contains("both answer 0/0"), "{fault}: {report}");
        assert!(report.contains("the buffer differs"), "{fault}: {report}");
        // By a call of the history, or when its files are read back.
        let report = report_of_histories(library);
        assert!(report.starts_with("history, call "), "{fault}: {report}");
        assert!(report.contains(" check"), "{fault}: {report}");
    }
}

/// What a fault on an altered file goes by.
struct Altered {
    kind: &'static Kind,
    before: Vec<u8>,
    /// The file's chain before the call.
    old: Chain,
}

/// The plain Rust, but a call of this name that alters a file's entry leaves a
/// fault on the image.
fn with_fault(
    call: &Call,
    scene: &mut Scene<Guarded>,
    name: &str,
    put: fn(&Altered, &mut [u8]),
) -> u64 {
    if call.name() != name {
        return perform(call, scene);
    }
    let before = scene.image.to_vec();
    let answer = perform(call, scene);
    if let Some(kind) = Kind::of_image(&before) {
        if let Some((old, _)) = altered_file(kind, &before, &scene.image) {
            put(&Altered { kind, before, old }, &mut scene.image);
        }
    }
    answer
}

/// The clusters that the size did not need stay in use.
fn keep_spare(altered: &Altered, image: &mut [u8]) {
    let values = chains::table(altered.kind, &altered.before);
    for &cluster in altered.old.clusters.iter().skip(altered.old.needed) {
        set_in_both(altered.kind, image, cluster, values[usize::from(cluster)]);
    }
}

/// Where no cluster was added, the end is written once more all the same.
fn write_end(altered: &Altered, image: &mut [u8]) {
    let tables = altered.kind.copy_at(0)..altered.kind.root_at();
    let is_as_it_was = altered.before[tables.clone()] == image[tables];
    if let (Some(&last), true) = (altered.old.clusters.last(), is_as_it_was) {
        set_in_both(altered.kind, image, last, 0xFFF);
    }
}

/// The clusters that the size did not need keep the bytes that they had, where
/// these become zero.
fn keep_gap(altered: &Altered, image: &mut [u8]) {
    for &cluster in altered.old.clusters.iter().skip(altered.old.needed) {
        let at = altered.kind.cluster_at(cluster);
        let old = &altered.before[at..];
        let new = image[at..][..altered.kind.cluster_bytes()].iter_mut();
        for (new, old) in new.zip(old).filter(|(new, _)| **new == 0) {
            *new = *old;
        }
    }
}

/// The plain Rust, but a chain that is longer than its size needs is finding 5.
fn exact_chains(call: &Call, scene: &mut Scene<Guarded>) -> u64 {
    let answer = perform(call, scene);
    match (call, Kind::of_image(&scene.image)) {
        (Call::Check, Some(kind)) if chains::sorts(kind, &scene.image, 0, 0)[0] => packed(5, 0),
        _ => answer,
    }
}

const FAULTS_OF_SPARE: [(&str, Library); 5] = [
    (" create ", |call, scene| {
        with_fault(call, scene, "create", keep_spare)
    }),
    (" delete ", |call, scene| {
        with_fault(call, scene, "delete", keep_spare)
    }),
    (" write ", |call, scene| {
        with_fault(call, scene, "write", write_end)
    }),
    (" write ", |call, scene| {
        with_fault(call, scene, "write", keep_gap)
    }),
    (" check", exact_chains),
];

#[test]
fn faults_on_spare_clusters_are_told() {
    for (number, (told, library)) in FAULTS_OF_SPARE.into_iter().enumerate() {
        for report in [report_of_singles(library), report_of_histories(library)] {
            assert!(report.contains(told), "fault {number}: {report}");
        }
    }
}

/// The lengths from 0 to 24 bytes, and longer ones.
#[test]
fn each_length_of_checks_out_comes() {
    for call in [Call::Check, Call::CheckSystem] {
        let mut times = [0; 25];
        for seed in 0..4000 {
            let length = buffer_for(&call, &mut Random::new(seed)).len();
            times[length.min(24)] += 1;
        }
        assert!(times.iter().all(|&times| times >= 50), "{times:?}");
    }
}

/// The plain Rust's find, with its pattern, slot and mask altered before.
fn find_altered(
    call: &Call,
    scene: &mut Scene<Guarded>,
    alter: fn(&mut Vec<u8>, &mut u32, &mut u32),
) -> u64 {
    let mut call = call.clone();
    if let Call::Find {
        pattern,
        slot,
        mask,
    } = &mut call
    {
        alter(pattern, slot, mask);
    }
    perform(&call, scene)
}

/// The plain Rust, but find takes the label for a file.
fn find_with_label(call: &Call, scene: &mut Scene<Guarded>) -> u64 {
    let (Call::Find { .. }, Some(kind)) = (call, Kind::of_image(&scene.image)) else {
        return perform(call, scene);
    };
    let before = scene.image.to_vec();
    let root = &mut scene.image[kind.root_at()..kind.system_bytes()];
    for entry in root.chunks_exact_mut(32) {
        if entry[11] & 0x08 != 0 && ![0x00, 0xE5].contains(&entry[0]) {
            // A file of no bytes.
            entry[11] &= !0x08;
            entry[26..].fill(0);
        }
    }
    let answer = perform(call, scene);
    scene.image.copy_from_slice(&before);
    answer
}

/// The plain Rust, but find passes over entries that are not to be seen.
fn find_blind(call: &Call, scene: &mut Scene<Guarded>, is_unseen: fn(&[u8], &[u8]) -> bool) -> u64 {
    let mut answer = perform(call, scene);
    let Call::Find { pattern, mask, .. } = call else {
        return answer;
    };
    while number(answer) == 0 {
        let root = Kind::of_image(&scene.image).map_or(0, |kind| kind.root_at());
        let entry = &scene.image[root + 32 * answer as usize..][..32];
        if !is_unseen(pattern, entry) {
            break;
        }
        answer = find(&scene.image, pattern, answer as u32 + 1, *mask);
    }
    answer
}

const FAULTS_OF_FIND: [(&str, Library); 12] = [
    ("one slot late", |call, scene| {
        find_altered(call, scene, |_, slot, _| *slot = slot.saturating_add(1))
    }),
    ("always from slot 0", |call, scene| {
        find_altered(call, scene, |_, slot, _| *slot = 0)
    }),
    ("the slot's low byte alone", |call, scene| {
        find_altered(call, scene, |_, slot, _| *slot &= 0xFF)
    }),
    ("one bit enough for both", |call, scene| {
        find_altered(call, scene, |_, _, mask| {
            if *mask & 0x06 != 0 {
                *mask |= 0x06;
            }
        })
    }),
    ("other bits of the mask matter", |call, scene| {
        find_altered(call, scene, |_, _, mask| {
            if *mask > 0xFF {
                *mask = 0;
            }
        })
    }),
    ("a star for the extension too", |call, scene| {
        find_altered(call, scene, |pattern, _, _| {
            if pattern.ends_with(b"*") && !pattern.contains(&b'.') {
                pattern.extend(b".*");
            }
        })
    }),
    ("a star that is not counted", |call, scene| {
        find_altered(call, scene, |pattern, _, _| {
            if pattern.len() == 9 && pattern.ends_with(b"*") {
                pattern.pop();
            }
        })
    }),
    ("no such file", |call, scene| match perform(call, scene) {
        answer if number(answer) == 18 => 2 << 32,
        answer => answer,
    }),
    ("the label shown", find_with_label),
    ("padding is not any byte", |call, scene| {
        find_blind(call, scene, |pattern, entry| {
            let base = pattern.split(|&byte| byte == b'.').next().unwrap_or(b"");
            base.iter().zip(entry).any(|pair| pair == (&b'?', &b' '))
        })
    }),
    ("bytes from 80 on are not any byte", |call, scene| {
        find_blind(call, scene, |_, entry| {
            entry[..11].iter().any(|&byte| byte >= 0x80)
        })
    }),
    ("read-only files do not show", |call, scene| {
        find_blind(call, scene, |_, entry| entry[11] & 0x01 != 0)
    }),
];

#[test]
fn faults_of_find_are_told() {
    for (fault, library) in FAULTS_OF_FIND {
        let report = report(library);
        assert!(report.contains("find '"), "{fault}: {report}");
        assert!(report.contains("expected"), "{fault}: {report}");
    }
}

/// Answers from a row, one find after the other.
fn answering(answers: &[u64]) -> impl FnMut(&Call) -> u64 + '_ {
    let mut answers = answers.iter();
    move |_| *answers.next().expect("no more finds")
}

#[test]
fn a_whole_search_tells_what_is_amiss() {
    let search = Search {
        pattern: b"*.*".to_vec(),
        mask: 6,
    };
    let (slots, end, other_end) = ([2, 3, 7], 18 << 32, 2 << 32);
    let compare = |answers: &[u64]| compare_search(&search, &slots, answering(answers));
    assert_eq!(compare(&[2, 3, 7, end]), Ok(()));
    for (answers, told) in [
        (vec![3], "from slot 0 mask 0x6: 0/2 expected, 0/3 answered"),
        (vec![2, 2], "from slot 3 mask 0x6: 0/3 expected, 0/2"),
        (vec![2, 7], "from slot 3 mask 0x6: 0/3 expected, 0/7"),
        (vec![2, 3, end], "from slot 4 mask 0x6: 0/7 expected, 18/0"),
        (vec![2, 3, 7, 7], "from slot 8 mask 0x6: 18/0 expected, 0/7"),
        (vec![2, 3, 7, other_end], "18/0 expected, 2/0 answered"),
    ] {
        let report = compare(&answers).expect_err(told);
        assert!(report.contains(told), "{told}: {report}");
    }
}

/// Where the history's own image lies.
static IMAGE_AT: OnceLock<usize> = OnceLock::new();

/// The plain Rust, but a find on a copy of the history's image is wrong.
fn wrong_on_copies(call: &Call, scene: &mut Scene<Guarded>) -> u64 {
    let at = scene.image.as_ptr() as usize;
    let is_copy = at != *IMAGE_AT.get_or_init(|| at);
    match call {
        Call::Find { .. } if is_copy => 2 << 32,
        _ => perform(call, scene),
    }
}

#[test]
fn a_history_ends_with_a_whole_search() {
    let mut tally = Tally::default();
    let report = history::compare(0, wrong_on_copies, GUARD, &mut tally).unwrap_err();
    assert!(report.starts_with("history, whole search, "), "{report}");
    assert_eq!(tally.calls(), history::CALLS);
}

#[test]
fn a_seed_gives_the_same_calls_each_time() {
    let fault = FAULTS[0].1;
    assert_eq!(report(fault), report(fault));
    let mut tally = Tally::default();
    assert_eq!(
        singles::compare(7, without_fault, GUARD, &mut tally),
        Ok(())
    );
    assert_eq!(tally.calls(), singles::CALLS);
}

/// Fails at all seeds from 5 on.
#[test]
fn the_lowest_seed_is_reported() {
    let work = |seed| match seed < 5 {
        true => Ok(seed),
        false => Err("wrong".to_string()),
    };
    let add = |sum: &mut u64, more| *sum += more;
    let failure = over_seeds(0..100, work, add).expect_err("seed 5 fails");
    assert_eq!(failure.seed, 5);
    assert_eq!(over_seeds(0..5, work, add).ok(), Some(10));
}

#[test]
fn pairs_that_are_not_met_or_not_allowed_are_faults() {
    let lines: usize = LINES.iter().map(|line| line.calls.len()).sum();
    // 15 calls by 40, 12 by 41, and the rest of the table; rescue on torn disks
    // stands for a call of its own.
    assert_eq!(
        lines,
        15 + 12 + 2 + 1 + 9 + 2 + 4 + 1 + 7 + 1 + 2 + 4 + 4 + 1 + 1 + 2 + 2 + 2
    );
    let mut tally = Tally::default();
    for line in &LINES {
        tally.note(&Call::Check, Some(line.refusal));
    }
    assert_eq!(tally.faults().len(), LINES.len());
    for _ in 0..10_000 {
        tally.note(&Call::Check, None);
    }
    let too_rare = rows().count() - 1 + lines + DEEDS.len();
    assert_eq!(tally.faults().len(), LINES.len() + too_rare);
    tally.note_deed(None);
    tally.note_deed(Some(DEEDS[0]));
    assert_eq!(tally.faults().len(), LINES.len() + too_rare - 1);
    assert!(!allows("check", Some(LINES[0].refusal)));
}

/// A history in which a file of some bytes was opened: its handle and bytes.
fn opened_file(seed: u64) -> Option<(Files, u32, Vec<u8>)> {
    let (plan, scene) = history_scene(&mut Random::new(seed));
    let mut files = Files::of(&plan, &scene.table);
    let mut records = scene.table.chunks_exact(16);
    let handle = records.position(|record| record[0] == 0)? as u32;
    let file = plan.files.iter().find(|file| file.content.len() > 10)?;
    let name = callers_form(&plan.slots[file.slot][..11]);
    let open = Call::Open { name, access: 2 };
    followed(&mut files, open, handle, &[]).ok()?;
    Some((files, handle, file.content.clone()))
}

fn followed(files: &mut Files, call: Call, value: u32, buffer: &[u8]) -> Result<(), String> {
    let after = After {
        value,
        table: &[],
        buffer,
    };
    files.follow(&call, after)
}

#[test]
fn the_history_tells_invented_answers() {
    let (mut files, handle, content) = (0..SEEDS).find_map(opened_file).expect("such a file");
    let write = |data: Vec<u8>| Call::Write { handle, data };
    assert!(followed(&mut files, write(vec![1; 5]), 4, &[]).is_err());
    assert!(followed(&mut files, write(vec![1; 5]), 5, &[]).is_ok());
    let read = || Call::Read { handle };
    assert!(followed(&mut files, read(), 2, &content[5..8]).is_err());
    assert!(followed(&mut files, read(), 3, &content[4..7]).is_err());
    let seek = || Call::Seek {
        handle,
        method: 0,
        offset: 3,
    };
    assert!(followed(&mut files, seek(), 4, &[]).is_err());
    assert!(followed(&mut files, seek(), 3, &[]).is_ok());
    let expected = [1, 1, content[5], content[6]];
    assert!(followed(&mut files, read(), 4, &expected).is_ok());
    let free = files.free();
    assert!(followed(&mut files, Call::FreeSpace, free + 1, &[]).is_err());
    assert!(followed(&mut files, Call::FreeSpace, free, &[]).is_ok());
}

/// A history of FE with one file of a byte and five clusters, open at place 0.
fn with_spare_clusters() -> Files {
    let mut plan = Plan::blank(&KINDS[0]);
    let file = File {
        slot: 0,
        clusters: vec![9, 8, 7, 6, 5],
        content: vec![1],
    };
    plan.add_file(file, *b"A          ", 0, 0xFFF);
    let mut table = [0; 16];
    table[..2].copy_from_slice(&[1, 2]);
    Files::of(&plan, &table)
}

/// So many bytes at the file's begin, and the free and held clusters then.
#[test]
fn the_history_counts_spare_clusters() {
    let all = 313 * 512;
    for (length, held) in [(0, 5), (1, 5), (2000, 5), (2560, 5), (2561, 6), (all, 313)] {
        let mut files = with_spare_clusters();
        assert_eq!([files.free(), files.held()], [308, 5]);
        let (handle, data) = (0, vec![2; length]);
        let write = Call::Write { handle, data };
        assert!(followed(&mut files, write, length as u32, &[]).is_ok());
        assert_eq!([files.free(), files.held()], [313 - held, held]);
    }
    // All its clusters are in the room, and all become free with it.
    let mut files = with_spare_clusters();
    let (handle, data) = (0, vec![2; all + 1]);
    let write = Call::Write { handle, data };
    assert!(followed(&mut files, write, all as u32, &[]).is_ok());
    let name = b"A".to_vec();
    assert!(followed(&mut files, Call::Delete { name }, 0, &[]).is_ok());
    assert_eq!([files.free(), files.held()], [313, 0]);
}

#[test]
fn the_history_tells_invented_slots() {
    let (mut files, ..) = (0..SEEDS).find_map(opened_file).expect("such a file");
    let find = |slot| Call::Find {
        pattern: b"*.*".to_vec(),
        slot,
        mask: 0x06,
    };
    let mut from = 0;
    for slot in files.listed(b"*.*", 0x06) {
        assert!(followed(&mut files, find(from), slot + 1, &[]).is_err());
        assert!(followed(&mut files, find(from), slot, &[]).is_ok());
        from = slot + 1;
    }
    assert!(from > 0);
    assert!(followed(&mut files, find(from), from, &[]).is_err());
}

/// How often there came up: a write of nothing, over a gap, a short one, one
/// with new clusters, one within the file's clusters; a read of some bytes.
static MET: [AtomicU64; 6] = [const { AtomicU64::new(0) }; 6];

fn counting(call: &Call, scene: &mut Scene<Guarded>) -> u64 {
    let before = (scene.table.to_vec(), scene.image.to_vec());
    let answer = perform(call, scene);
    let sorts = match call {
        Call::Write { handle, data } if number(answer) == 0 => {
            let after = (answer as usize, &scene.image[..]);
            sorts_of_write(*handle as usize, data.len(), &before, after)
        }
        Call::Read { .. } if scene.table.len() != READING_TABLE => {
            [false, false, false, false, false, answer as u32 > 0]
        }
        _ => [false; 6],
    };
    for (met, sort) in MET.iter().zip(sorts) {
        met.fetch_add(u64::from(sort), Relaxed);
    }
    answer
}

fn sorts_of_write(
    handle: usize,
    length: usize,
    (table, image): &(Vec<u8>, Vec<u8>),
    (count, image_after): (usize, &[u8]),
) -> [bool; 6] {
    let root = Kind::of_image(image).map_or(0, |kind| kind.root_at());
    let [slot, pointer] = [4, 8].map(|at| word(table, 16 * handle + at) as usize);
    let gap = pointer > word(image, root + 32 * slot + 28) as usize;
    let grown = image[..root] != image_after[..root];
    let (some, short) = (count > 0, count < length);
    [
        !some,
        some && gap,
        some && short,
        grown,
        some && !grown,
        false,
    ]
}

#[test]
fn histories_have_reads_and_writes_of_each_sort() {
    for seed in 0..SEEDS {
        let mut tally = Tally::default();
        assert_eq!(history::compare(seed, counting, GUARD, &mut tally), Ok(()));
    }
    let met = MET.each_ref().map(|met| met.load(Relaxed));
    assert!(met.iter().all(|&times| times >= 10), "{met:?}");
}
