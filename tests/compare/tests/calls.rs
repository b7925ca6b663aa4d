//! Points of the other calls that are easily missed.

mod common;

use common::{expect_words, record, Desk, EVENING};
use compare::volume::{entry, format, free_space, open, view, view_number};

/// A FE volume with a file LONG of 1,025 bytes in slot 0, all closed.
fn desk() -> Desk {
    let mut desk = Desk::new(0xFE);
    desk.put("LONG", &[1; 1025]);
    desk
}

#[test]
fn format_fills_all() {
    for (kind, system, copies) in [
        (0xFE, 7, [1, 2]),
        (0xFF, 10, [1, 2]),
        (0xFC, 9, [1, 3]),
        (0xFD, 12, [1, 3]),
    ] {
        let desk = Desk::new(kind);
        let mut expected = vec![0xF6; desk.image.len()];
        expected[..512 * system].fill(0);
        for copy in copies {
            expected[512 * copy..512 * copy + 3].copy_from_slice(&[kind as u8, 0xFF, 0xFF]);
        }
        assert!(desk.image == expected);
        assert_eq!(desk.check(), (0, 0));
    }
    assert_eq!(format(&mut vec![0; 320 * 512], 0x1FE), 40 << 32);
}

#[test]
fn names_given_by_callers() {
    let good: [(&[u8], &[u8; 11]); 8] = [
        (b"tare.key", b"TARE    KEY"),
        (b"TARE.", b"TARE       "),
        (b"a", b"A          "),
        (b"12345678.901", b"12345678901"),
        (b"$&#@!%'(.)-{", b"$&#@!%'()-{"),
        (b"}_.z", b"}_      Z  "),
        (b"abcdefgh", b"ABCDEFGH   "),
        (b"0.0", b"0       0  "),
    ];
    for (given, stored) in good {
        let mut desk = Desk::new(0xFE);
        assert_eq!(desk.create_at(given, 0, EVENING), (0, 0));
        assert_eq!(desk.slot(0)[..11], *stored);
    }
}

#[test]
fn names_that_break_the_rules() {
    let bad: [&[u8]; 16] = [
        b"",
        b".",
        b".KEY",
        b"123456789",
        b"A.1234",
        b"A.B.C",
        b"A..",
        b"A B",
        b" A",
        b"A ",
        b"A*",
        b"A.B?",
        b"\xC4",
        b"A\x00",
        b"A/B",
        b"12345678.1234",
    ];
    for given in bad {
        let mut desk = Desk::new(0xFE);
        desk.refuses(42, |desk| desk.create_at(given, 0, EVENING));
    }
}

#[test]
fn each_byte_in_a_callers_name() {
    for byte in 0..=255u8 {
        let signs = b"$&#@!%'()-{}_";
        let good = byte.is_ascii_alphanumeric() || signs.contains(&byte);
        let base = Desk::new(0xFE).create_at(&[byte], 0, EVENING);
        let extension = Desk::new(0xFE).create_at(&[b'A', b'.', byte], 0, EVENING);
        let expected = if good { (0, 0) } else { (42, 0) };
        assert_eq!((base, extension), (expected, expected), "{byte:02X}");
    }
}

#[test]
fn the_labels_name_is_not_taken_and_out_of_reach() {
    let mut desk = desk();
    desk.put("LABEL", b"");
    desk.slot(1)[11] = 0x08;
    for access in 0..3 {
        desk.refuses(2, |desk| desk.open("LABEL", access));
    }
    desk.refuses(2, |desk| desk.delete("LABEL"));
    desk.refuses(2, |desk| desk.mode("LABEL", 0, 0));
    desk.refuses(2, |desk| desk.rename("LABEL", "OTHER"));
    assert_eq!(desk.rename("LONG", "LABEL"), (0, 0));
    assert_eq!(desk.rename("LABEL", "LONG"), (0, 0));
    assert_eq!(desk.create("LABEL", 0), (0, 0));
    assert_eq!(desk.slot(2)[..11], *b"LABEL      ");
    assert_eq!(desk.check(), (0, 0));
}

#[test]
fn a_used_place_of_any_access_makes_a_file_open() {
    let mut desk = desk();
    desk.record(15).copy_from_slice(&record(0x80, 9, 0, 0, 0));
    desk.refuses(5, |desk| desk.create("LONG", 0));
    desk.refuses(5, |desk| desk.delete("LONG"));
    desk.refuses(5, |desk| desk.rename("LONG", "NEW"));
    desk.refuses(5, |desk| desk.mode("LONG", 1, 0));
    desk.refuses(6, |desk| desk.close(15));
    assert_eq!(desk.mode("LONG", 0, u32::MAX), (0, 0x20));
    // The same record past the first 16, or in a last piece, is not there.
    desk.table = [vec![0; 256], record(1, 2, 0, 0, 0)].concat();
    desk.refuses(6, |desk| desk.seek(16, 0, 0));
    assert_eq!(desk.mode("LONG", 1, 0), (0, 0));
    desk.table = record(1, 2, 0, 0, 0);
    desk.table.pop();
    desk.refuses(6, |desk| desk.seek(0, 0, 0));
    desk.refuses(4, |desk| desk.open("LONG", 0));
    assert_eq!(desk.delete("LONG"), (0, 0));
}

#[test]
fn a_new_file_in_a_slot_that_a_place_names() {
    let mut desk = desk();
    desk.record(0).copy_from_slice(&record(1, 0, 0, 1, 5));
    desk.record(1).copy_from_slice(&record(1, 3, 0, 1, 5));
    desk.refuses(6, |desk| desk.read(0, &mut []));
    desk.refuses(6, |desk| desk.close(0));
    assert_eq!(desk.create("NEW", 0), (0, 2));
    assert_eq!(desk.seek(0, 1, 0), (0, 5));
    desk.refuses(6, |desk| desk.seek(1, 1, 0));
    assert_eq!(desk.close(0), (0, 0));
    assert_eq!(desk.record(0), [0; 16]);
    desk.refuses(5, |desk| desk.delete("NEW"));
}

#[test]
fn places_that_are_not_live() {
    let mut desk = desk();
    desk.put("LABEL", b"");
    desk.slot(1)[11] = 0x08;
    desk.put("GONE", b"");
    assert_eq!(desk.delete("GONE"), (0, 0));
    for slot in [1, 2, 3, 63, 64, 65, 256, u32::MAX] {
        desk.record(0).copy_from_slice(&record(1, 2, 0, slot, 0));
        desk.refuses(6, |desk| desk.seek(0, 0, 0));
        desk.refuses(6, |desk| desk.close(0));
        assert_eq!(open(&desk.image, &mut desk.table.clone(), b"LONG", 0), 1);
    }
    // Unused is byte 0 alone; open stores all 16 bytes.
    desk.record(0).copy_from_slice(&record(0, 2, 1, 0, 9));
    desk.refuses(6, |desk| desk.seek(0, 0, 0));
    assert_eq!(desk.open("LONG", 1), (0, 0));
    assert_eq!(
        desk.record(0),
        [1, 1, 0, 0, 0, 0, 0, 0, 0, 0, 0, 0, 0, 0, 0, 0]
    );
    assert_eq!(desk.create("NEW", 0), (0, 1));
    assert_eq!(
        desk.record(1),
        [1, 2, 0, 0, 2, 0, 0, 0, 0, 0, 0, 0, 0, 0, 0, 0]
    );
}

#[test]
fn only_sixteen_places() {
    let mut desk = desk();
    desk.table = vec![0; 17 * 16];
    for place in 0..16 {
        assert_eq!(desk.open("LONG", 0), (0, place));
    }
    desk.refuses(4, |desk| desk.open("LONG", 0));
    assert_eq!(desk.close(7), (0, 0));
    assert_eq!(desk.open("LONG", 2), (0, 7));
}

#[test]
fn create_takes_the_lowest_slot_and_sets_all_bytes() {
    let mut desk = desk();
    desk.put("B", &[2; 600]);
    desk.put("C", b"c");
    desk.slot(1)[12..22].fill(0xEE);
    assert_eq!(desk.create_at(b"b", 0x27, EVENING), (0, 0));
    let stamped = [0xBD, 0x90, 0x21, 0x07, 0, 0, 0, 0, 0, 0];
    let expected = [b"B          \x27".as_slice(), &[0; 10], &stamped].concat();
    assert_eq!(desk.slot(1), expected);
    assert_eq!([5, 6, 7].map(|n| desk.value(n)), [0, 0, 0xFFF]);
    // It is marked read-only, yet its place takes writes.
    assert_eq!(desk.write(0, b"xyz"), (0, 3));
    assert_eq!(desk.close(0), (0, 0));
    desk.refuses(5, |desk| desk.create("B", 0));
    assert_eq!(desk.delete("LONG"), (0, 0));
    assert_eq!(desk.create("NEW", 0), (0, 0));
    assert_eq!(desk.slot(0)[..11], *b"NEW        ");
    assert_eq!(desk.check(), (0, 0));
}

/// An erased slot's start and size mean nothing to a new file in it.
#[test]
fn create_in_an_erased_slot_frees_nothing() {
    let mut desk = desk();
    desk.put("B", b"b");
    assert_eq!(desk.delete("LONG"), (0, 0));
    desk.slot(0)[26] = 5;
    assert_eq!(desk.create("NEW", 0), (0, 0));
    assert_eq!(desk.value(5), 0xFFF);
    assert_eq!(desk.check(), (0, 0));
}

#[test]
fn read_leaves_the_rest_of_the_buffer() {
    let mut desk = desk();
    assert_eq!(desk.open("LONG", 0), (0, 0));
    assert_eq!(desk.seek(0, 2, -3), (0, 1022));
    let mut buffer = [9; 6];
    assert_eq!(desk.read(0, &mut buffer), (0, 3));
    assert_eq!(buffer, [1, 1, 1, 9, 9, 9]);
    assert_eq!(desk.read(0, &mut buffer), (0, 0));
    assert_eq!(desk.seek(0, 2, i32::MAX), (0, 1025 + i32::MAX as u32));
    assert_eq!(desk.read(0, &mut buffer), (0, 0));
    assert_eq!(desk.seek(0, 1, 0), (0, 1025 + i32::MAX as u32));
    assert_eq!(buffer, [1, 1, 1, 9, 9, 9]);
}

#[test]
fn seek_at_the_ends_of_32_bits() {
    let mut desk = desk();
    assert_eq!(desk.open("LONG", 1), (0, 0));
    desk.record(0)[3] = 0x55;
    desk.record(0)[8..12].fill(0xFF);
    assert_eq!(desk.seek(0, 1, 0), (0, u32::MAX));
    desk.refuses(1, |desk| desk.seek(0, 1, 1));
    desk.refuses(1, |desk| desk.seek(0, 1, i32::MAX));
    assert_eq!(desk.seek(0, 1, i32::MIN), (0, 0x7FFF_FFFF));
    desk.refuses(1, |desk| desk.seek(0, 1, i32::MIN));
    desk.refuses(1, |desk| desk.seek(0, 0, i32::MIN));
    assert_eq!(desk.seek(0, 2, -1025), (0, 0));
    assert_eq!(desk.record(0)[3], 0x55);
}

#[test]
fn a_write_of_nothing_changes_nothing() {
    let mut desk = desk();
    desk.record(0).copy_from_slice(&record(1, 1, 7, 0, 5000));
    let before = desk.clone();
    assert_eq!(desk.write(0, b""), (0, 0));
    assert!(desk == before);
    // At and past the room: nothing either.
    for pointer in [313 * 512, 313 * 512 + 1, u32::MAX] {
        desk.record(0).copy_from_slice(&record(1, 1, 7, 0, pointer));
        let before = desk.clone();
        assert_eq!(desk.write(0, b"x"), (0, 0));
        assert!(desk == before);
    }
    desk.record(0)
        .copy_from_slice(&record(1, 1, 7, 0, 313 * 512 - 1));
    assert_eq!(desk.write(0, b"xy"), (0, 1));
    assert_eq!(desk.record(0), record(1, 1, 1, 0, 313 * 512));
    assert_eq!(desk.counts(), [1, 0, 313, 0, 0]);
}

#[test]
fn the_gap_becomes_zero_and_bytes_past_the_size_stay() {
    let mut desk = desk();
    let data = 7 * 512;
    desk.image[data + 1025..data + 4096].fill(0xDD);
    assert_eq!(desk.open("LONG", 2), (0, 0));
    assert_eq!(desk.seek(0, 0, 2000), (0, 2000));
    assert_eq!(desk.write(0, b"ab"), (0, 2));
    let expected = [
        vec![1; 1025],
        vec![0; 975],
        b"ab".to_vec(),
        vec![0xDD; 2094],
    ]
    .concat();
    assert!(desk.image[data..data + 4096] == expected);
    assert_eq!([2, 3, 4, 5].map(|n| desk.value(n)), [3, 4, 5, 0xFFF]);
    // A write inside leaves the size alone.
    assert_eq!(desk.seek(0, 0, 1), (0, 1));
    assert_eq!(desk.write(0, b"zz"), (0, 2));
    assert_eq!(desk.seek(0, 2, 0), (0, 2002));
}

#[test]
fn only_entries_that_must_change_are_written() {
    let mut desk = desk();
    desk.set_value(4, 0xFF8);
    desk.set_value(5, 0xFF7);
    desk.set_value(7, 0xFF0);
    assert_eq!(desk.open("LONG", 1), (0, 0));
    assert_eq!(desk.seek(0, 2, 0), (0, 1025));
    assert_eq!(desk.write(0, &[2; 511]), (0, 511));
    assert_eq!(desk.value(4), 0xFF8);
    assert_eq!(desk.write(0, &[2; 1024]), (0, 1024));
    let values = [2, 3, 4, 5, 6, 7, 8, 9].map(|n| desk.value(n));
    assert_eq!(values, [3, 4, 6, 0xFF7, 8, 0xFF0, 0xFFF, 0]);
    assert_eq!(desk.image[512..1024], desk.image[1024..1536]);
    assert_eq!(desk.check(), (0, 0));
}

#[test]
fn size_and_start_are_stored_at_once_but_no_stamp() {
    let mut desk = Desk::new(0xFD);
    assert_eq!(desk.create("A", 0), (0, 0));
    let before = desk.slot(0).to_vec();
    assert_eq!(desk.write(0, &[5; 1025]), (0, 1025));
    let after = desk.slot(0).to_vec();
    assert_eq!(after[..26], before[..26]);
    assert_eq!(after[26..], [2, 0, 1, 4, 0, 0]);
    assert_eq!(desk.image[512..1536], desk.image[1536..2560]);
}

#[test]
fn two_places_on_one_file() {
    let mut desk = desk();
    assert_eq!(desk.open("LONG", 1), (0, 0));
    assert_eq!(desk.open("LONG", 0), (0, 1));
    assert_eq!(desk.seek(0, 2, 0), (0, 1025));
    assert_eq!(desk.write(0, b"end"), (0, 3));
    assert_eq!(desk.seek(1, 2, -3), (0, 1025));
    let mut buffer = [0; 4];
    assert_eq!(desk.read(1, &mut buffer), (0, 3));
    assert_eq!(&buffer[..3], b"end");
    assert_eq!(desk.close(0), (0, 0));
    desk.refuses(5, |desk| desk.delete("LONG"));
    assert_eq!(desk.close(1), (0, 0));
    assert_eq!(desk.delete("LONG"), (0, 0));
}

#[test]
fn close_stamps_what_was_written() {
    let mut desk = desk();
    assert_eq!(desk.mode("LONG", 1, 0x02), (0, 0));
    let before = desk.clone();
    assert_eq!(desk.open("LONG", 2), (0, 0));
    assert_eq!(desk.close_at(0, EVENING), (0, 0));
    assert!(desk == before);
    desk.record(3).copy_from_slice(&record(9, 0, 0x80, 0, 77));
    assert_eq!(desk.close_at(3, EVENING), (0, 0));
    assert_eq!(desk.slot(0)[11], 0x22);
    assert_eq!(desk.slot(0)[22..26], [0xBD, 0x90, 0x21, 0x07]);
    assert_eq!(desk.table, [0; 256]);
}

#[test]
fn delete_changes_the_table_and_one_byte() {
    let mut desk = desk();
    let mut expected = desk.image.clone();
    expected[512 + 3..512 + 8].fill(0);
    expected[1024 + 3..1024 + 8].fill(0);
    expected[1536] = 0xE5;
    assert_eq!(desk.delete("long"), (0, 0));
    assert!(desk.image == expected);
}

#[test]
fn rename_changes_the_name_only() {
    let mut desk = desk();
    let mut expected = desk.image.clone();
    expected[1536..1547].copy_from_slice(b"NEW     X  ");
    assert_eq!(desk.rename("long", "new.x"), (0, 0));
    assert!(desk.image == expected);
    desk.refuses(5, |desk| desk.rename("NEW.X", "new.x"));
}

#[test]
fn mode_replaces_the_attribute_of_read_only_files_too() {
    let mut desk = desk();
    for attribute in [0x01, 0x27, 0x00, 0x06] {
        assert_eq!(desk.mode("LONG", 1, attribute), (0, 0));
        assert_eq!(desk.mode("LONG", 0, 0xFFFF), (0, attribute));
    }
    // Hidden and system files open too.
    assert_eq!(desk.open("LONG", 2), (0, 0));
}

/// Bad and reserved clusters are not free, and have no words of their own.
#[test]
fn free_space_puts_four_words() {
    let mut desk = desk();
    desk.set_value(10, 0xFF7);
    desk.set_value(11, 0xFF0);
    expect_words(&[308, 313, 512, 1], 308, |out| free_space(&desk.image, out));
}

#[test]
fn entries_by_the_first_byte_alone() {
    let mut desk = desk();
    desk.slot(1)[0] = 0xE5;
    desk.slot(3)[..12].copy_from_slice(b"..         \xFF");
    desk.slot(3)[12..].copy_from_slice(&[7; 20]);
    assert_eq!(desk.check(), (4, 3));
    let mut out = [9; 24];
    for slot in [1, 2, 4, 63, 64, 65, 256, u32::MAX] {
        assert_eq!(entry(&desk.image, slot, &mut out), 0);
    }
    assert_eq!(entry(&desk.image, 3, &mut out[..21]), 1);
    assert_eq!(out, [9; 24]);
    assert_eq!(entry(&desk.image, 3, &mut out), 1);
    assert_eq!(out[..12], *b"..         \xFF");
    assert_eq!(out[12..], [7, 7, 7, 7, 7, 7, 7, 7, 7, 7, 9, 9]);
    assert_eq!(entry(&desk.image, 0, &mut out), 1);
    assert_eq!(out[12..22], [0x00, 0x35, 0x21, 0x07, 2, 0, 1, 4, 0, 0]);
}

#[test]
fn views() {
    let mut desk = desk();
    desk.put("EMPTY", b"");
    let data = 7 * 512;
    for (offset, from, to) in [
        (0, 0, 512),
        (1, 1, 512),
        (511, 511, 512),
        (512, 512, 1024),
        (1024, 1024, 1025),
    ] {
        let part = view(&desk.image, b"long", offset);
        assert_eq!(part.as_ptr(), desk.image[data + from..].as_ptr());
        assert_eq!(part.len(), to - from);
        assert_eq!(view_number(&desk.image, b"long", offset), 0);
    }
    for (name, offset) in [
        (b"LONG".as_slice(), 1025),
        (b"LONG", u32::MAX),
        (b"EMPTY", 0),
    ] {
        assert!(view(&desk.image, name, offset).is_empty());
        assert_eq!(view_number(&desk.image, name, offset), 0);
    }
    // The second part of a chain that jumps.
    desk.put("B", &[2; 512]);
    assert_eq!(desk.open("LONG", 1), (0, 0));
    assert_eq!(desk.seek(0, 0, 1536), (0, 1536));
    assert_eq!(desk.write(0, b"far"), (0, 3));
    let part = view(&desk.image, b"LONG", 1537);
    assert_eq!(part, b"ar");
    assert_eq!(part.as_ptr(), desk.image[data + 4 * 512 + 1..].as_ptr());
}
