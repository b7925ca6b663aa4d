//! Find: patterns, masks and slots, each reading by examples worked by hand.

mod common;

use common::Desk;
use compare::comparison::search::{compare_search, listed};
use compare::volume::find;
use compare::volumes::calls::Call;
use compare::volumes::finds::Search;
use compare::volumes::patterns::fitting_pattern;
use compare::volumes::random::Random;
use compare::volumes::sound::sound_plan;

const HIDDEN: u8 = 0x02;
const SYSTEM: u8 = 0x04;
const LABEL: u8 = 0x08;

/// A volume with an empty file for each stored name and attribute, in slots
/// from 0 on.
fn desk_of(kind: u32, files: &[(&[u8; 11], u8)]) -> Desk {
    let mut desk = Desk::new(kind);
    for (slot, (name, attribute)) in files.iter().enumerate() {
        desk.slot(slot)[..11].copy_from_slice(*name);
        desk.slot(slot)[11] = *attribute;
    }
    assert_eq!(desk.check(), (0, 0));
    desk
}

/// Whether the pattern finds the only file of a volume.
fn matches(pattern: &[u8], name: &[u8; 11]) -> bool {
    match desk_of(0xFE, &[(name, 0)]).find(pattern, 0, 0) {
        (0, 0) => true,
        (18, 0) => false,
        other => panic!("{}: {other:?}", pattern.escape_ascii()),
    }
}

/// All slots that a whole search lists.
fn searched(desk: &Desk, pattern: &[u8], mask: u32) -> Vec<u32> {
    let mut slots = Vec::new();
    let mut answer = desk.find(pattern, 0, mask);
    while let (0, slot) = answer {
        slots.push(slot);
        answer = desk.find(pattern, slot + 1, mask);
    }
    assert_eq!(answer, (18, 0));
    slots
}

/// Names as they are stored.
type Names = &'static [&'static [u8; 11]];

/// A pattern, names that it matches, and others.
const CASES: [(&[u8], Names, Names); 10] = [
    (
        b"DAY???.LOG",
        &[b"DAY001  LOG", b"DAY1    LOG", b"DAY     LOG"],
        &[b"DAY0001 LOG", b"DA      LOG", b"DAY001  KEY"],
    ),
    (
        b"*.KEY",
        &[b"TARE    KEY", b"12345678KEY"],
        &[b"TARE    KE ", b"KEY        "],
    ),
    (
        b"ABCDEFG*",
        &[b"ABCDEFG    ", b"ABCDEFGH   "],
        &[b"ABCDEF     ", b"ABCDEFGHI  "],
    ),
    (
        b"A*.L*",
        &[b"A       L  ", b"AB      LOG"],
        &[b"A       OG "],
    ),
    (b"A.*", &[b"A          ", b"A       XYZ"], &[b"AB      XYZ"]),
    (b"A.?", &[b"A          ", b"A       X  "], &[b"A       XY "]),
    (
        b"A.X??",
        &[b"A       X  ", b"A       XYZ"],
        &[b"A        YZ"],
    ),
    (
        b"A.XY*",
        &[b"A       XY ", b"A       XYZ"],
        &[b"A       X  "],
    ),
    (b"?", &[b"A          ", b"_          "], &[b"AB         "]),
    (b"?B*", &[b"AB         ", b"BBB        "], &[b"A          "]),
];

#[test]
fn patterns_and_the_names_that_they_match() {
    for (pattern, fitting, others) in CASES {
        let shown = pattern.escape_ascii();
        for name in fitting {
            assert!(matches(pattern, name), "{shown}, {}", name.escape_ascii());
        }
        for name in others {
            assert!(!matches(pattern, name), "{shown}, {}", name.escape_ascii());
        }
    }
}

#[test]
fn patterns_that_break_the_rules() {
    let bad: [&[u8]; 28] = [
        b"",
        b".",
        b".LOG",
        b".*",
        b".???",
        b"ABCDEFGH*",
        b"????????*",
        b"?????????",
        b"123456789",
        b"*A",
        b"**",
        b"*?",
        b"A*B",
        b"A.*B",
        b"A.**",
        b"A.*?",
        b"A.ABC*",
        b"A.????",
        b"A.B.C",
        b"*.*.*",
        b"A..",
        b"* ",
        b"A B",
        b"A/B",
        b"\x80",
        b"?\xC4.*",
        b"*.\xE5",
        b"A\x00",
    ];
    for pattern in bad {
        let mut desk = desk_of(0xFE, &[(b"A          ", 0)]);
        for slot in [0, 63, 64, 256, u32::MAX] {
            desk.refuses(42, |desk| desk.find(pattern, slot, 6));
        }
    }
}

#[test]
fn each_byte_in_a_pattern() {
    let desk = desk_of(0xFE, &[(b"~          ", 0)]);
    for byte in 0..=255u8 {
        let signs = b"$&#@!%'()-{}_?*";
        let good = byte.is_ascii_alphanumeric() || signs.contains(&byte);
        for pattern in [&[byte][..], &[b'A', byte], &[b'A', b'.', byte]] {
            let refused = desk.find(pattern, 0, 0).0 == 42;
            // A dot after a character has nothing after it, or is a second one.
            let dot = pattern == b"A.";
            assert_eq!(refused, !good && !dot, "{}", pattern.escape_ascii());
        }
    }
}

#[test]
fn small_letters_are_capitals() {
    assert!(matches(b"day*.l?g", b"DAY001  LOG"));
    assert!(matches(b"tare", b"TARE       "));
    // Small letters on the volume are out of reach but for `?`.
    assert!(!matches(b"tare", b"tare       "));
    assert!(!matches(b"TARE", b"tare       "));
    assert!(matches(b"????", b"tare       "));
}

#[test]
fn the_star_fills_its_own_part() {
    let names: [&[u8; 11]; 4] = [
        b"DAY     LOG",
        b"DAY        ",
        b"12345678901",
        b"12345678   ",
    ];
    let desk = desk_of(0xFE, &names.map(|name| (name, 0)));
    for pattern in [b"*.*".as_slice(), b"????????.???", b"????????.*", b"?*.*"] {
        assert_eq!(searched(&desk, pattern, 0), [0, 1, 2, 3]);
    }
    for pattern in [b"*".as_slice(), b"*.", b"????????", b"????????."] {
        assert_eq!(searched(&desk, pattern, 0), [1, 3]);
    }
    assert_eq!(searched(&desk, b"DAY*", 0), [1]);
    assert_eq!(searched(&desk, b"DAY.*", 0), [0, 1]);
    assert_eq!(searched(&desk, b"1234567*.9*", 0), [2]);
}

/// `?` matches padding, and bytes that no caller's name has.
#[test]
fn a_question_mark_is_any_byte() {
    assert!(matches(b"DAY?.LOG", b"DAY     LOG"));
    for byte in 0..=255u8 {
        let mut name = *b"AxB     LOG";
        name[1] = byte;
        assert!(matches(b"A?B.LOG", &name));
        assert!(matches(b"A*.LOG", &name));
        assert_eq!(matches(b"AXB.LOG", &name), byte == b'X');
        let mut name = *b"A       LxG";
        name[9] = byte;
        assert!(matches(b"A.L?G", &name));
        let mut name = *b"xA         ";
        name[0] = byte;
        // These are no files: never used, erased, finding 4.
        if ![0x00, 0xE5, 0x2E].contains(&byte) {
            assert!(matches(b"?A", &name));
        }
    }
}

#[test]
fn a_pattern_may_be_a_name() {
    let mut desk = desk_of(0xFE, &[(b"TARE       ", 0), (b"TARE    KEY", 0)]);
    for (pattern, slot) in [("TARE", 0), ("tare.", 0), ("TARE.KEY", 1), ("tare.key", 1)] {
        assert_eq!(desk.find(pattern.as_bytes(), 0, 0), (0, slot));
        let (_, handle) = desk.open(pattern, 0);
        assert_eq!(u32::from(desk.record(handle as usize)[4]), slot);
    }
}

#[test]
fn hidden_and_system_files_want_their_bits() {
    let name = b"A          ";
    // Read-only and archive never matter, and no other bit of the mask.
    for others in [0x00, 0x01, 0x20, 0x21] {
        for mask in [0u32, 0xFFFF_FFF9, 0x0000_0100, 0x0000_0200, 0x21] {
            let shown = |attribute: u8, bits: u32| {
                let desk = desk_of(0xFE, &[(name, attribute | others)]);
                desk.find(b"*.*", 0, mask | bits) == (0, 0)
            };
            let by_masks = |attribute| [0, 2, 4, 6].map(|bits| shown(attribute, bits));
            assert_eq!(by_masks(0), [true; 4]);
            assert_eq!(by_masks(HIDDEN), [false, true, false, true]);
            assert_eq!(by_masks(SYSTEM), [false, false, true, true]);
            assert_eq!(by_masks(HIDDEN | SYSTEM), [false, false, false, true]);
        }
    }
}

#[test]
fn the_search_goes_on_past_files_that_do_not_show() {
    let files: [(&[u8; 11], u8); 5] = [
        (b"A          ", HIDDEN | SYSTEM),
        (b"B          ", SYSTEM),
        (b"C          ", HIDDEN),
        (b"D       X  ", 0),
        (b"E          ", 0x21),
    ];
    let desk = desk_of(0xFD, &files);
    assert_eq!(searched(&desk, b"*", 0), [4]);
    assert_eq!(searched(&desk, b"*", 2), [2, 4]);
    assert_eq!(searched(&desk, b"*", 4), [1, 4]);
    assert_eq!(searched(&desk, b"*.*", 0xFF), [0, 1, 2, 3, 4]);
    assert_eq!(searched(&desk, b"*.X", !6), [3]);
}

/// The slot is a whole 32-bit number, and out of range nothing matches.
#[test]
fn slots_to_begin_at() {
    for (kind, slots) in [(0xFE, 64), (0xFF, 112), (0xFC, 64), (0xFD, 112)] {
        let names: Vec<[u8; 11]> = (0..slots)
            .map(|slot| *format!("F{slot:<10}").as_bytes().first_chunk().unwrap())
            .collect();
        let files: Vec<(&[u8; 11], u8)> = names.iter().map(|name| (name, 0)).collect();
        let mut desk = desk_of(kind, &files);
        for slot in [0, 1, 63, slots - 1] {
            assert_eq!(desk.find(b"*", slot, 0), (0, slot));
            let own = format!("F{slot}");
            assert_eq!(desk.find(own.as_bytes(), 0, 0), (0, slot));
            assert_eq!(desk.find(own.as_bytes(), slot, 0), (0, slot));
            desk.refuses(18, |desk| desk.find(own.as_bytes(), slot + 1, 0));
        }
        for slot in [slots, slots + 1, 256, 257, 0x1_0000, 0x8000_0000, u32::MAX] {
            desk.refuses(18, |desk| desk.find(b"*.*", slot, 6));
        }
        let all: Vec<u32> = (0..slots).collect();
        assert_eq!(searched(&desk, b"*.*", 0), all);
    }
}

#[test]
fn erased_entries_and_the_label_are_never_found() {
    let files: [(&[u8; 11], u8); 4] = [
        (b"GONE    LOG", 0),
        (b"LABEL   LOG", LABEL | HIDDEN),
        (b"GONE    KEY", HIDDEN),
        (b"HERE    LOG", 0),
    ];
    let mut desk = desk_of(0xFE, &files);
    desk.slot(0)[0] = 0xE5;
    desk.slot(2)[0] = 0xE5;
    // A slot that was never used may have any bytes after its first.
    desk.slot(4)[1..11].copy_from_slice(b"ERE    LOG");
    assert_eq!(desk.check(), (0, 0));
    for mask in [0, 2, 6, 8, 0xE, 0xFF, u32::MAX] {
        for pattern in [b"*.*".as_slice(), b"*.LOG", b"????.LOG", b"?*.?*"] {
            assert_eq!(searched(&desk, pattern, mask), [3]);
        }
        for pattern in [b"LABEL.LOG".as_slice(), b"GONE.*", b"?ONE.LOG", b"*.KEY"] {
            desk.refuses(18, |desk| desk.find(pattern, 0, mask));
        }
    }
}

#[test]
fn a_blank_volume_has_no_match() {
    let mut desk = Desk::new(0xFC);
    desk.refuses(18, |desk| desk.find(b"*.*", 0, u32::MAX));
}

/// A file that comes, goes or changes its name or attribute between two finds.
#[test]
fn find_sees_what_other_calls_did() {
    let mut desk = Desk::new(0xFE);
    desk.put("DAY1.LOG", b"1");
    desk.put("DAY2.LOG", b"2");
    assert_eq!(searched(&desk, b"DAY*.LOG", 0), [0, 1]);
    assert_eq!(desk.mode("DAY1.LOG", 1, 0x06), (0, 0));
    assert_eq!(searched(&desk, b"DAY*.LOG", 2), [1]);
    assert_eq!(desk.rename("DAY2.LOG", "OLD2.LOG"), (0, 0));
    assert_eq!(searched(&desk, b"DAY*.LOG", 6), [0]);
    assert_eq!(desk.delete("DAY1.LOG"), (0, 0));
    assert_eq!(searched(&desk, b"*.*", 6), [1]);
}

const ROUNDS: u64 = 2000;

#[test]
fn whole_searches_list_what_the_list_by_hand_has() {
    let mut found = 0;
    for seed in 0..ROUNDS {
        let mut random = Random::new(seed);
        let plan = sound_plan(&mut random);
        let image = plan.image();
        let search = Search::random(plan.kind, &image, &mut random);
        let slots = listed(&search, plan.kind, &image);
        found += slots.len() as u64;
        let find = |call: &Call| match call {
            Call::Find {
                pattern,
                slot,
                mask,
            } => find(&image, pattern, *slot, *mask),
            other => panic!("{other}"),
        };
        assert_eq!(compare_search(&search, &slots, find), Ok(()));
    }
    assert!(found > ROUNDS, "{found}");
}

/// A pattern made from a file's name finds it.
#[test]
fn patterns_made_from_names_match_them() {
    for seed in 0..ROUNDS {
        let mut random = Random::new(seed);
        let plan = sound_plan(&mut random);
        let image = plan.image();
        for file in plan.files.iter().take(10) {
            let slot = file.slot as u32;
            let pattern = fitting_pattern(&plan.slots[file.slot][..11], &mut random);
            let answer = find(&image, &pattern, slot, 6);
            assert_eq!(answer, u64::from(slot), "{}", pattern.escape_ascii());
        }
    }
}
