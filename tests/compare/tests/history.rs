//! Long rows of calls, each compared with the model byte by byte.

mod common;

use std::collections::BTreeMap;

use common::model::Model;
use compare::comparison::deeds::{deed, DEEDS};
use compare::volume::answer::{packed, value};
use compare::volume::{check, view, view_number};
use compare::volumes::broken::{break_kind, break_plan};
use compare::volumes::calls::{perform, Call, Scene, NAMES};
use compare::volumes::open_tables::open_table;
use compare::volumes::plan::Plan;
use compare::volumes::random::Random;
use compare::volumes::random_calls::{buffer_for, random_call};
use compare::volumes::sound::sound_plan;
use compare::volumes::texts::callers_form;

const HISTORIES: u64 = 150;
const CALLS: usize = 120;

/// Makes one call on both, and compares all that it can have touched.
fn step(call: &Call, model: &mut Model, scene: &mut Scene, note: &str) -> u64 {
    model.buffer.clone_from(&scene.buffer);
    let before = model.clone();
    let expected = match model.apply(call) {
        Ok(value) => packed(0, value as u32),
        Err(number) => {
            *model = before;
            packed(number, 0)
        }
    };
    let answer = perform(call, scene);
    assert_eq!(answer, expected, "{note} {call:?}");
    assert!(scene.image == model.image(), "image: {note} {call:?}");
    assert!(scene.table == model.table, "table: {note} {call:?}");
    assert!(scene.buffer == model.buffer, "buffer: {note} {call:?}");
    answer
}

/// How often each refusal number came up, each call ended well, and calls did
/// what with spare clusters.
#[derive(Debug, Default)]
struct Tally {
    numbers: BTreeMap<u64, u64>,
    ended_well: BTreeMap<&'static str, u64>,
    deeds: BTreeMap<&'static str, u64>,
}

impl Tally {
    fn note(&mut self, call: &Call, answer: u64) {
        *self.numbers.entry(answer >> 32).or_default() += 1;
        *self.ended_well.entry(call.name()).or_default() += u64::from(answer >> 32 == 0);
    }

    fn note_deed(&mut self, deed: &'static str) {
        *self.deeds.entry(deed).or_default() += 1;
    }
}

fn run_history(seed: u64, tally: &mut Tally) {
    let mut random = Random::new(seed);
    let plan = sound_plan(&mut random);
    let kind = plan.kind;
    let table = open_table(&plan, &mut random);
    let mut scene = Scene {
        image: plan.image(),
        table: table.clone(),
        buffer: Vec::new(),
    };
    let mut model = Model::new(plan, table);
    for number in 0..CALLS {
        let call = random_call(kind, &scene, &mut random);
        scene.buffer = buffer_for(&call, &mut random);
        let note = format!("seed {seed}, call {number}:");
        let before = scene.image.clone();
        let answer = step(&call, &mut model, &mut scene, &note);
        tally.note(&call, answer);
        if let Some(deed) = deed(&call, &before, &scene.image) {
            tally.note_deed(deed);
        }
    }
    assert_eq!(check(&scene.image, &mut []), 0);
    compare_views(&model.plan, &scene.image);
}

#[test]
fn histories_as_the_model_has_them() {
    let mut tally = Tally::default();
    for seed in 0..HISTORIES {
        run_history(seed, &mut tally);
    }
    // Each refusal of a sound volume came up, and each call ended well.
    let numbers: Vec<u64> = tally.numbers.keys().copied().collect();
    assert_eq!(numbers, [0, 1, 2, 4, 5, 6, 12, 18, 40, 42, 43], "{tally:?}");
    assert!(
        tally.numbers[&0] > HISTORIES * CALLS as u64 / 3,
        "{tally:?}"
    );
    assert_eq!(tally.ended_well.len(), NAMES.len(), "{tally:?}");
    assert!(
        tally.ended_well.values().all(|&times| times >= 10),
        "{tally:?}"
    );
    assert_eq!(tally.deeds.len(), DEEDS.len(), "{tally:?}");
    assert!(tally.deeds.values().all(|&times| times >= 5), "{tally:?}");
}

/// All views of a file together are its content.
fn compare_views(plan: &Plan, image: &[u8]) {
    for file in &plan.files {
        let name = callers_form(&plan.slots[file.slot][..11]);
        if view_number(image, &name, 0) != 0 {
            continue;
        }
        let mut seen = Vec::new();
        loop {
            match view(image, &name, seen.len() as u32) {
                [] => break,
                part => seen.extend_from_slice(part),
            }
        }
        assert!(seen == file.content);
    }
}

fn takes_any_volume(call: &Call) -> bool {
    let check = matches!(call, Call::Check | Call::CheckSystem);
    let by_slot_or_name = matches!(call, Call::Entry { .. } | Call::Rescue { .. });
    check || by_slot_or_name || matches!(call, Call::Format { .. })
}

/// The other calls on volumes of no kind or not sound: 40 or 41, and nothing
/// altered.
#[test]
fn other_volumes_are_refused_and_left_alone() {
    for seed in 0..HISTORIES {
        let mut random = Random::new(seed);
        let mut plan = sound_plan(&mut random);
        let table = open_table(&plan, &mut random);
        let finding = random.between(3, 7) as u32;
        let broken = break_plan(&mut plan, finding, &mut random);
        let mut scene = Scene {
            image: plan.image(),
            table,
            buffer: vec![7; 30],
        };
        let expected = match broken {
            Some(_) => 41,
            None => {
                break_kind(&mut scene.image, &mut random);
                40
            }
        };
        for _ in 0..CALLS {
            let call = random_call(plan.kind, &scene, &mut random);
            if takes_any_volume(&call) {
                continue;
            }
            let before = scene.clone();
            assert_eq!(perform(&call, &mut scene), packed(expected, 0));
            assert!(scene == before);
        }
    }
}

/// Random bytes of the right length, whatever they are, never stop a call.
#[test]
fn any_bytes_are_taken() {
    for seed in 0..HISTORIES {
        let mut random = Random::new(seed);
        let plan = sound_plan(&mut random);
        let mut scene = Scene {
            image: vec![0; *random.pick(&[0, 1, 513, 5000, plan.kind.image_bytes()])],
            table: vec![0; random.below(300)],
            buffer: vec![0; random.below(40)],
        };
        random.fill(&mut scene.image);
        random.fill(&mut scene.table);
        if let (Some(byte), true) = (scene.image.get_mut(512), random.one_in(2)) {
            *byte = plan.kind.byte;
        }
        for _ in 0..20 {
            let call = random_call(plan.kind, &scene, &mut random);
            let answer = perform(&call, &mut scene);
            let check = matches!(call, Call::Check | Call::CheckSystem);
            assert!(check || answer >> 32 == 0 || value(answer) == 0);
        }
    }
}
