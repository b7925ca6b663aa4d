//! Volumes with open tables: what calls are tried on.

use super::calls::Scene;
use super::mixed::mixed_image;
use super::open_tables::{any_table, table_for_a_history};
use super::plan::Plan;
use super::random::Random;
use super::sound::{fill_root, sound_plan};
use crate::volume::kind::{Kind, SECTOR};

fn scene(image: Vec<u8>, table: Vec<u8>) -> Scene {
    Scene {
        image,
        table,
        buffer: Vec::new(),
    }
}

/// Three of four volumes are sound, some with a full root; the others are
/// mixed. The kind is that of byte 512, or any where it names none.
pub fn any_scene(seed: u64) -> (&'static Kind, Scene) {
    let mut random = Random::new(seed);
    let mut plan = sound_plan(&mut random);
    if random.one_in(6) {
        fill_root(&mut plan, &mut random);
    }
    let table = any_table(&plan, &mut random);
    if !random.one_in(4) {
        return (plan.kind, scene(plan.image(), table));
    }
    let image = mixed_image(random.word());
    let byte = image.get(SECTOR).copied().unwrap_or(0);
    let kind = Kind::of_number(u32::from(byte)).unwrap_or(plan.kind);
    (kind, scene(image, table))
}

/// A sound volume with a table on which a long row of calls can go on, and its
/// plan. Three of four have room for files to grow.
pub fn history_scene(random: &mut Random) -> (Plan, Scene) {
    let least = match random.one_in(4) {
        true => 0,
        false => 100,
    };
    let plan = loop {
        let plan = sound_plan(random);
        if plan.free_clusters().len() >= least {
            break plan;
        }
    };
    let table = table_for_a_history(&plan, random);
    let scene = scene(plan.image(), table);
    (plan, scene)
}
