//! Refusals in their order: each call breaks a line and all later ones too.

mod common;

use common::{halves, record, Desk, MORNING};
use compare::volume::{entry, format, free_space, view, view_number};

const BAD_STAMP: [u32; 6] = [24, 0, 0, 0, 1, 1];

/// A file of three bytes, one that is read-only, and one that is open.
fn desk() -> Desk {
    let mut desk = Desk::new(0xFE);
    desk.put("PLAIN", b"abc");
    desk.put("LOCKED", b"def");
    assert_eq!(desk.mode("LOCKED", 1, 1), (0, 0));
    desk.put("BUSY", b"ghi");
    assert_eq!(desk.open("BUSY", 0), (0, 0));
    desk
}

/// The same volume, one byte short: of no kind.
fn short() -> Desk {
    let mut desk = desk();
    desk.image.pop();
    desk
}

/// The same volume with a difference between the copies: not sound.
fn sick() -> Desk {
    let mut desk = desk();
    desk.image[1024 + 511] ^= 1;
    desk
}

/// The same volume, PLAIN with a spare cluster behind its own, 2.
fn reserving() -> Desk {
    let mut desk = desk();
    desk.set_value(2, 9);
    desk.set_value(9, 0xFFF);
    desk
}

/// Makes a call, and answers its number; the value is put aside where it is not
/// always 0.
type Made = fn(&mut Desk) -> (u32, u32);

/// A spare cluster is no reason to refuse; a chain without end is, though it
/// has as many clusters as the size needs.
#[test]
fn longer_chains_are_sound_while_they_end() {
    let calls: [Made; 12] = [
        |desk| (halves(free_space(&desk.image, &mut [])).0, 0),
        |desk| desk.find(b"PLAIN", 0, 0),
        |desk| (desk.open("PLAIN", 2).0, 0),
        |desk| (desk.create("PLAIN", 0).0, 0),
        |desk| (desk.read(0, &mut [0; 9]).0, 0),
        |desk| (desk.write(1, b"x").0, 0),
        |desk| desk.seek(0, 0, 0),
        |desk| desk.close(0),
        |desk| desk.delete("PLAIN"),
        |desk| desk.rename("PLAIN", "NEW"),
        |desk| desk.mode("PLAIN", 1, 0),
        |desk| halves(view_number(&desk.image, b"PLAIN", 0)),
    ];
    let without_end: [fn(&mut Desk); 4] = [
        |desk| desk.set_value(9, 9),
        |desk| desk.set_value(9, 2),
        |desk| desk.set_value(9, 0),
        |desk| desk.set_value(9, 0xFF7),
    ];
    for call in calls {
        let mut desk = reserving();
        // A place for the write.
        desk.record(1).copy_from_slice(&record(1, 1, 0, 2, 0));
        assert_eq!(call(&mut desk), (0, 0));
        for spoil in without_end {
            let mut desk = reserving();
            spoil(&mut desk);
            desk.refuses(41, call);
        }
    }
}

#[test]
fn format_refuses_only_by_40() {
    let mut desk = short();
    desk.refuses(40, |desk| halves(format(&mut desk.image, 0xFE)));
    let mut desk = sick();
    for kind in [0xFF, 0xFC, 0xFD, 0, 0xFB, 0x1FE, 0xFFFF_FFFE] {
        desk.refuses(40, |desk| halves(format(&mut desk.image, kind)));
    }
    assert_eq!(format(&mut [], 0xFE), 40 << 32);
    assert_eq!(halves(format(&mut desk.image, 0xFE)), (0, 0));
    assert_eq!(desk.image, Desk::new(0xFE).image);
}

#[test]
fn free_space_and_entry() {
    let mut out = [9; 30];
    assert_eq!(free_space(&short().image, &mut out), 40 << 32);
    assert_eq!(free_space(&sick().image, &mut out), 41 << 32);
    assert_eq!(entry(&short().image, 0, &mut out), 40 << 32);
    assert_eq!(out, [9; 30]);
    assert_eq!(entry(&sick().image, 0, &mut out), 1);
    assert_eq!(out[..12], *b"PLAIN      \x20");
    assert_eq!(out[22..], [9; 8]);
}

#[test]
fn find_in_order() {
    let mut desk = desk();
    short().refuses(40, |desk| desk.find(b"**", 64, 0));
    sick().refuses(41, |desk| desk.find(b"**", 64, 0));
    for slot in [0, 64, 256, u32::MAX] {
        desk.refuses(42, |desk| desk.find(b"**", slot, 0));
    }
    for slot in [3, 63, 64, 65, 256, 0x8000_0000, u32::MAX] {
        desk.refuses(18, |desk| desk.find(b"*.*", slot, 6));
    }
    // No such file is 18 too, never 2.
    desk.refuses(18, |desk| desk.find(b"NONE", 0, 6));
    assert_eq!(desk.find(b"*.*", 0, 0), (0, 0));
    assert_eq!(desk.find(b"BUSY", 0, 0), (0, 2));
}

#[test]
fn open_in_order() {
    let mut desk = desk();
    short().refuses(40, |desk| desk.open("*", 3));
    sick().refuses(41, |desk| desk.open("*", 3));
    desk.refuses(12, |desk| desk.open("*", 3));
    desk.refuses(12, |desk| desk.open("PLAIN", 300));
    desk.refuses(42, |desk| desk.open("*", 2));
    desk.table.truncate(16);
    desk.refuses(2, |desk| desk.open("NONE", 2));
    desk.refuses(5, |desk| desk.open("LOCKED", 1));
    desk.refuses(5, |desk| desk.open("LOCKED", 2));
    desk.refuses(4, |desk| desk.open("LOCKED", 0));
    desk.refuses(4, |desk| desk.open("PLAIN", 2));
}

#[test]
fn create_in_order() {
    let mut desk = desk();
    short().refuses(40, |desk| desk.create_at(b"", 8, BAD_STAMP));
    sick().refuses(41, |desk| desk.create_at(b"", 8, BAD_STAMP));
    desk.refuses(42, |desk| desk.create_at(b"", 8, BAD_STAMP));
    desk.refuses(43, |desk| desk.create_at(b"NEW", 8, BAD_STAMP));
    desk.table.truncate(16);
    for attribute in [0x08, 0x10, 0x40, 0x80, 0x100, 0x121, u32::MAX] {
        desk.refuses(5, |desk| desk.create("NEW", attribute));
        desk.refuses(5, |desk| desk.create("PLAIN", attribute));
    }
    desk.refuses(5, |desk| desk.create("LOCKED", 0));
    desk.refuses(5, |desk| desk.create("BUSY", 0));
    desk.refuses(4, |desk| desk.create("PLAIN", 0));
    desk.refuses(4, |desk| desk.create("NEW", 0x27));
    // A full root and no place: 5 comes first.
    for slot in 3..64 {
        desk.slot(slot)[..11].copy_from_slice(format!("F{slot:<10}").as_bytes());
    }
    assert_eq!(desk.check(), (0, 0));
    desk.refuses(5, |desk| desk.create("NEW", 0));
}

#[test]
fn read_and_write_in_order() {
    let mut buffer = [1; 8];
    short().refuses(40, |desk| desk.read(9, &mut buffer));
    sick().refuses(41, |desk| desk.read(9, &mut buffer));
    short().refuses(40, |desk| desk.write(9, b"x"));
    sick().refuses(41, |desk| desk.write(9, b"x"));
    let mut desk = desk();
    assert_eq!(desk.open("PLAIN", 1), (0, 1));
    for handle in [2, 15, 16, 256, 4_000_000_000] {
        desk.refuses(6, |desk| desk.read(handle, &mut buffer));
        desk.refuses(6, |desk| desk.write(handle, b"x"));
    }
    desk.refuses(5, |desk| desk.read(1, &mut buffer));
    desk.refuses(5, |desk| desk.read(1, &mut []));
    desk.refuses(5, |desk| desk.write(0, b"x"));
    desk.refuses(5, |desk| desk.write(0, b""));
    assert_eq!(buffer, [1; 8]);
}

#[test]
fn seek_in_order() {
    short().refuses(40, |desk| desk.seek(9, 3, -1));
    sick().refuses(41, |desk| desk.seek(9, 3, -1));
    let mut desk = desk();
    desk.refuses(1, |desk| desk.seek(9, 3, -1));
    desk.refuses(1, |desk| desk.seek(0, u32::MAX, 0));
    desk.refuses(6, |desk| desk.seek(9, 0, -1));
    desk.refuses(1, |desk| desk.seek(0, 0, -1));
    desk.refuses(1, |desk| desk.seek(0, 2, -4));
}

#[test]
fn close_in_order() {
    short().refuses(40, |desk| desk.close_at(9, BAD_STAMP));
    sick().refuses(41, |desk| desk.close_at(9, BAD_STAMP));
    let mut desk = desk();
    desk.refuses(43, |desk| desk.close_at(9, BAD_STAMP));
    desk.refuses(43, |desk| desk.close_at(0, BAD_STAMP));
    desk.refuses(6, |desk| desk.close(9));
    assert_eq!(desk.close(0), (0, 0));
    desk.refuses(6, |desk| desk.close(0));
}

#[test]
fn each_number_of_a_stamp_has_its_range() {
    let mut desk = desk();
    let bad = [
        [24, 60, 30, 120, 13, 32],
        [256, 256, 256, 256, 0, 0],
        [u32::MAX; 6],
    ];
    for numbers in bad {
        for at in 0..6 {
            let mut stamp = MORNING;
            stamp[at] = numbers[at];
            desk.refuses(43, |desk| desk.close_at(0, stamp));
            desk.refuses(43, |desk| desk.create_at(b"NEW", 0, stamp));
        }
    }
    assert_eq!(desk.create_at(b"LOW", 0, [0, 0, 0, 0, 1, 1]), (0, 1));
    assert_eq!(
        desk.create_at(b"HIGH", 0, [23, 59, 29, 119, 12, 31]),
        (0, 2)
    );
}

#[test]
fn delete_in_order() {
    short().refuses(40, |desk| desk.delete(""));
    sick().refuses(41, |desk| desk.delete(""));
    let mut desk = desk();
    desk.refuses(42, |desk| desk.delete(""));
    desk.refuses(2, |desk| desk.delete("NONE"));
    desk.refuses(5, |desk| desk.delete("LOCKED"));
    desk.refuses(5, |desk| desk.delete("BUSY"));
    assert_eq!(desk.delete("PLAIN"), (0, 0));
    desk.refuses(2, |desk| desk.delete("PLAIN"));
}

#[test]
fn rename_in_order() {
    short().refuses(40, |desk| desk.rename("", ""));
    sick().refuses(41, |desk| desk.rename("", ""));
    let mut desk = desk();
    desk.refuses(42, |desk| desk.rename("NONE", "*"));
    desk.refuses(42, |desk| desk.rename("*", "PLAIN"));
    desk.refuses(2, |desk| desk.rename("NONE", "PLAIN"));
    desk.refuses(5, |desk| desk.rename("LOCKED", "NEW"));
    desk.refuses(5, |desk| desk.rename("BUSY", "NEW"));
    desk.refuses(5, |desk| desk.rename("PLAIN", "BUSY"));
    desk.refuses(5, |desk| desk.rename("PLAIN", "plain."));
    assert_eq!(desk.rename("PLAIN", "NEW"), (0, 0));
}

#[test]
fn mode_in_order() {
    short().refuses(40, |desk| desk.mode("", 2, 8));
    sick().refuses(41, |desk| desk.mode("", 2, 8));
    let mut desk = desk();
    desk.refuses(1, |desk| desk.mode("", 2, 8));
    desk.refuses(42, |desk| desk.mode("", 1, 8));
    desk.refuses(2, |desk| desk.mode("NONE", 1, 8));
    for attribute in [0x08, 0x10, 0x40, 0x80, 0x100, 0x121, u32::MAX] {
        desk.refuses(5, |desk| desk.mode("PLAIN", 1, attribute));
    }
    desk.refuses(5, |desk| desk.mode("BUSY", 1, 0));
    assert_eq!(desk.mode("BUSY", 0, 0), (0, 0x20));
}

#[test]
fn view_in_order() {
    let refused = |desk: &Desk, name: &[u8], number: u64| {
        assert_eq!(view_number(&desk.image, name, 0), number << 32);
        assert!(view(&desk.image, name, 0).is_empty());
    };
    refused(&short(), b"", 40);
    refused(&sick(), b"", 41);
    refused(&desk(), b"", 42);
    refused(&desk(), b"NONE", 2);
    assert_eq!(view_number(&desk().image, b"BUSY", 0), 0);
    assert_eq!(view(&desk().image, b"locked", 1), b"ef");
}
