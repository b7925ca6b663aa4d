//! cases FOLDER: inputs for the listing program, NAME.in, each with the text
//! that must come out, NAME.out.
//!
//! `paper.in` is the specification's own case and has no `.out`: its text is
//! stored with the test.

use std::path::Path;

use compare::listing::listing;
use compare::volume::kind::{Kind, KINDS};
use compare::volume::{close, create, format, write};
use compare::volumes::broken::{break_copies, break_plan};
use compare::volumes::damage::lengths;
use compare::volumes::mixed::mixed_image;
use compare::volumes::plan::{File, Plan};
use compare::volumes::random::Random;
use compare::volumes::sound::sound_plan_of;

/// An input and its name.
type Case = (String, Vec<u8>);

/// The specification's case, made by the calls that it names.
fn paper() -> Vec<u8> {
    let kind = &KINDS[0];
    let mut image = vec![0; kind.image_bytes()];
    let mut table = [0; 16];
    assert_eq!(format(&mut image, 0xFE), 0);
    put(&mut image, &mut table, "TARE.KEY", 1, 40, [6, 40, 0]);
    put(&mut image, &mut table, "DAY001.LOG", 0, 1025, [18, 5, 29]);
    image.truncate(kind.system_bytes());
    image
}

/// Creates, writes and closes a file of 1 September 1983.
fn put(image: &mut [u8], table: &mut [u8], name: &str, attribute: u32, size: u32, time: [u32; 3]) {
    let [hour, minute, step] = time;
    let data = vec![0x42; size as usize];
    let name = name.as_bytes();
    let made = create(image, table, name, attribute, hour, minute, step, 3, 9, 1);
    assert_eq!(made, 0);
    assert_eq!(write(image, table, 0, &data), u64::from(size));
    assert_eq!(close(image, table, 0, hour, minute, step, 3, 9, 1), 0);
}

/// The system area of a plan.
fn area(plan: &Plan) -> Vec<u8> {
    let mut image = plan.image();
    image.truncate(plan.kind.system_bytes());
    image
}

/// Empty volumes of each kind: the area, with the data, and with one byte too
/// few or too many.
fn blanks(cases: &mut Vec<Case>) {
    for kind in &KINDS {
        let image = Plan::blank(kind).image();
        for length in lengths(kind) {
            let mut input = image.clone();
            input.resize(length, 0xF6);
            cases.push((format!("blank-{:02X}-{length}", kind.byte), input));
        }
        let mut input = image;
        input.truncate(6144);
        cases.push((format!("blank-{:02X}-6144", kind.byte), input.clone()));
        input.push(0xFF);
        cases.push((format!("blank-{:02X}-6145", kind.byte), input));
    }
}

/// Volumes with an empty file in each of some slots.
fn plan_with(kind: &'static Kind, entries: &[([u8; 11], u8, u16, u16)]) -> Plan {
    let mut plan = Plan::blank(kind);
    for (slot, (name, attribute, time, date)) in entries.iter().enumerate() {
        let file = File {
            slot,
            clusters: Vec::new(),
            content: Vec::new(),
        };
        plan.add_file(file, *name, *attribute, 0xFFF);
        plan.slots[slot][22..24].copy_from_slice(&time.to_le_bytes());
        plan.slots[slot][24..26].copy_from_slice(&date.to_le_bytes());
    }
    plan
}

/// Name bytes of all sorts: each of the 256 bytes that check passes, spaces
/// inside and in front, no name, no extension.
fn names(cases: &mut Vec<Case>) {
    let fixed = [
        *b"TARE       ",
        *b"A B     C D",
        *b" A       D ",
        *b"        EXT",
        *b"           ",
        *b"$&#@!%'()-{",
        *b"}_09AZ  I  ",
        *b"a.b\xE5\x00\xFF~^`+,",
        *b"\x05       \x05\xE5\x00",
    ];
    let entries = fixed.map(|name| (name, 0x20, 0, 0x21));
    cases.push(("names".into(), area(&plan_with(&KINDS[2], &entries))));
    for (at, first) in (0..=255).step_by(64).enumerate() {
        let entry = |byte: u8| {
            let mut name = [byte; 11];
            name[0] = b'A';
            (name, 0, 0, 0x21)
        };
        let entries: Vec<_> = (first..=first + 63).map(|byte| entry(byte as u8)).collect();
        cases.push((format!("bytes-{at}"), area(&plan_with(&KINDS[0], &entries))));
    }
}

/// Stamps at and beyond the ends of their ranges, and each attribute.
fn stamps(cases: &mut Vec<Case>) {
    let time = |hour: u16, minute: u16, step: u16| hour << 11 | minute << 5 | step;
    let date = |year: u16, month: u16, day: u16| year << 9 | month << 5 | day;
    let times = [
        0,
        time(23, 59, 29),
        time(24, 0, 0),
        time(0, 60, 0),
        time(0, 0, 30),
        time(12, 30, 15),
        u16::MAX,
    ];
    let dates = [
        0,
        date(0, 1, 1),
        date(119, 12, 31),
        date(120, 1, 1),
        date(20, 0, 1),
        date(20, 13, 1),
        date(20, 1, 0),
        date(20, 2, 31),
        u16::MAX,
    ];
    let mut entries = Vec::new();
    for (n, &time) in times.iter().enumerate() {
        for (m, &date) in dates.iter().enumerate() {
            let mut name = *b"T00D00     ";
            name[2] += n as u8;
            name[5] += m as u8;
            entries.push((name, (9 * n + m) as u8 & 0x27, time, date));
        }
    }
    cases.push(("stamps".into(), area(&plan_with(&KINDS[3], &entries))));
}

/// A label before, between and after files; erased slots beside it.
fn labels(cases: &mut Vec<Case>) {
    for slot in 0..3 {
        let mut entries =
            [*b"ONE        ", *b"TWO        ", *b"THREE      "].map(|name| (name, 0, 0, 0x21));
        entries[slot].1 = 0x08;
        let mut plan = plan_with(&KINDS[1], &entries);
        plan.slots[slot][12..].fill(0xFF);
        cases.push((format!("label-{slot}"), area(&plan)));
        plan.slots[(slot + 1) % 3][0] = 0xE5;
        cases.push((format!("label-erased-{slot}"), area(&plan)));
    }
}

/// Table values: each reserved one, bad, and each end value, on one volume.
fn values(cases: &mut Vec<Case>) {
    let mut plan = Plan::blank(&KINDS[3]);
    for n in 0..8 {
        let file = File {
            slot: n,
            clusters: vec![20 + n as u16, 10 - n as u16],
            content: vec![1; 1025],
        };
        let mut name = *b"END     FF8";
        name[10] += n as u8;
        plan.add_file(file, name, 0, 0xFF8 + n as u16);
        plan.values[100 + n] = 0xFF0 + n as u16;
    }
    cases.push(("values".into(), area(&plan)));
}

/// Files with spare clusters, and one of size 0 with a chain, on each kind.
fn spare(cases: &mut Vec<Case>) {
    for kind in &KINDS {
        let mut plan = Plan::blank(kind);
        for (slot, size) in [0, 1, kind.cluster_bytes(), 0].into_iter().enumerate() {
            let first = 9 * slot as u16 + 2;
            let file = File {
                slot,
                clusters: (first..first + slot as u16 + 1).rev().collect(),
                content: vec![1; size],
            };
            let mut name = *b"SPARE0     ";
            name[5] += slot as u8;
            plan.add_file(file, name, 0, 0xFFF);
        }
        cases.push((format!("spare-{:02X}", kind.byte), area(&plan)));
    }
}

/// Findings 2 to 7, some of each, of all kinds.
fn findings(cases: &mut Vec<Case>) {
    for (turn, kind) in (0..).zip(KINDS.iter().cycle().take(8)) {
        let random = &mut Random::new(turn);
        for finding in 2..=7 {
            let mut plan = sound_plan_of(kind, random);
            if finding > 2 && break_plan(&mut plan, finding, random).is_none() {
                continue;
            }
            let mut image = plan.image();
            if finding == 2 {
                break_copies(kind, &mut image, random);
            }
            image.truncate(kind.system_bytes());
            cases.push((format!("finding-{finding}-{turn}"), image));
        }
    }
}

/// Whole images of all sorts.
fn mixed(cases: &mut Vec<Case>) {
    for seed in 0..60 {
        cases.push((format!("mixed-{seed}"), mixed_image(seed)));
    }
}

fn main() -> std::io::Result<()> {
    let folder = std::env::args().nth(1).expect("cases FOLDER");
    let folder = Path::new(&folder);
    let mut cases = vec![("empty".to_string(), Vec::new())];
    for add in [
        blanks, names, stamps, labels, values, spare, findings, mixed,
    ] {
        add(&mut cases);
    }
    std::fs::write(folder.join("paper.in"), paper())?;
    for (name, input) in cases {
        std::fs::write(folder.join(format!("{name}.in")), &input)?;
        std::fs::write(folder.join(format!("{name}.out")), listing(&input))?;
    }
    Ok(())
}
