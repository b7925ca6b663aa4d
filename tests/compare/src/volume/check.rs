//! When a volume is sound: the seven findings in their order, and the counts.

use super::answer::{packed, put_words, Refusal};
use super::directory::{attribute, entries, is_label, is_live, name, Entry, NEVER_USED};
use super::kind::Kind;
use super::name_set::NameSet;
use super::table::{is_bad, is_end, is_reserved, values, Values};
use super::walks::Walks;

/// The first finding that holds, and its place.
#[derive(Clone, Copy, Debug, PartialEq, Eq)]
pub struct Finding {
    pub number: u32,
    pub place: u32,
}

/// What check counts on a sound volume.
#[derive(Clone, Copy, Debug, Default, PartialEq, Eq)]
pub struct Counts {
    pub files: u32,
    pub free: u32,
    pub held: u32,
    pub bad: u32,
    pub reserved: u32,
}

impl Counts {
    /// In the order of `out`.
    pub const fn words(self) -> [u32; 5] {
        [self.files, self.free, self.held, self.bad, self.reserved]
    }
}

/// A sound volume: its kind, its table entries and the counts.
pub struct Sound {
    pub kind: &'static Kind,
    pub values: Values,
    pub counts: Counts,
}

pub fn finding(number: u32, place: usize) -> Finding {
    Finding {
        number,
        place: place as u32,
    }
}

/// Check on a whole image.
pub fn check(image: &[u8], out: &mut [u8]) -> u64 {
    report(examined_image(image), out)
}

/// Check on a system area alone; bytes past it are ignored.
pub fn check_system(area: &[u8], out: &mut [u8]) -> u64 {
    report(examined_system_area(area), out)
}

fn report(outcome: Result<Sound, Finding>, out: &mut [u8]) -> u64 {
    match outcome {
        Ok(Sound { counts, .. }) => {
            put_words(out, counts.words());
            0
        }
        Err(finding) => packed(finding.number, finding.place),
    }
}

/// What all calls but format, check and entry test first: 40, then 41.
pub fn sound_volume(image: &[u8]) -> Result<Sound, Refusal> {
    let kind = Kind::of_image(image).ok_or(Refusal::NotOfAKind)?;
    examined(kind, image).map_err(|_| Refusal::NotSound)
}

pub fn examined_image(image: &[u8]) -> Result<Sound, Finding> {
    examined(Kind::of_image(image).ok_or(finding(1, 0))?, image)
}

pub fn examined_system_area(area: &[u8]) -> Result<Sound, Finding> {
    examined(Kind::of_system_area(area).ok_or(finding(1, 0))?, area)
}

/// Findings 2 to 7 on an area that holds all system sectors of its kind.
fn examined(kind: &'static Kind, area: &[u8]) -> Result<Sound, Finding> {
    let copy = &area[kind.copy_at(0)..][..kind.fat_bytes()];
    compare_copies(copy, &area[kind.copy_at(1)..][..kind.fat_bytes()])?;
    let values = values(kind, copy);
    let (free, bad, reserved) = classify(kind, &values)?;
    let entries = entries(kind, area);
    look_at_slots(entries)?;
    let (files, held) = Walks::over(kind, &values).walk_files(entries)?;
    Ok(Sound {
        kind,
        values,
        counts: Counts {
            files,
            free,
            held,
            bad,
            reserved,
        },
    })
}

/// Finding 2: the marks of copy 1, and the copies' difference.
fn compare_copies(first: &[u8], second: &[u8]) -> Result<(), Finding> {
    let mark = (1..3).find(|&at| first[at] != 0xFF);
    let difference = match first == second {
        true => None,
        false => first.iter().zip(second).position(|(a, b)| a != b),
    };
    match mark.into_iter().chain(difference).min() {
        Some(at) => Err(finding(2, at)),
        None => Ok(()),
    }
}

/// Finding 3, and how many clusters are free, bad and reserved.
fn classify(kind: &Kind, values: &Values) -> Result<(u32, u32, u32), Finding> {
    let (mut free, mut bad, mut reserved) = (0, 0, 0);
    for (cluster, &value) in values
        .iter()
        .enumerate()
        .take(kind.last_cluster() + 1)
        .skip(2)
    {
        if value == 0 {
            free += 1;
        } else if is_bad(value) {
            bad += 1;
        } else if is_reserved(value) {
            reserved += 1;
        } else if !kind.has_cluster(value) && !is_end(value) {
            return Err(finding(3, cluster));
        }
    }
    Ok((free, bad, reserved))
}

/// Finding 4: each slot against the slots below it.
fn look_at_slots(entries: &[Entry]) -> Result<(), Finding> {
    let mut past_the_used = false;
    let mut has_label = false;
    let mut names = NameSet::new();
    for (slot, entry) in entries.iter().enumerate() {
        if past_the_used && entry[0] != NEVER_USED {
            return Err(finding(4, slot));
        }
        past_the_used |= entry[0] == NEVER_USED;
        if !is_live(entry) {
            continue;
        }
        let forbidden = entry[0] == 0x2E || attribute(entry) & 0xD0 != 0;
        let repeated = match is_label(entry) {
            true => std::mem::replace(&mut has_label, true),
            false => !names.insert(name(entry)),
        };
        if forbidden || repeated {
            return Err(finding(4, slot));
        }
    }
    Ok(())
}
