//! Rescue: refusals in their order, and points that are easily missed.

mod common;

use common::{halves, Desk};
use compare::volume::rescue;
use compare::volume::table::set_value;

/// FE: TARE of 1,025 bytes in slot 0 and clusters 2 to 4, DAY of 512 in slot 1
/// and cluster 5, EMPTY in slot 2.
fn desk() -> Desk {
    let mut desk = Desk::new(0xFE);
    desk.put("TARE", &content());
    desk.put("DAY", &[9; 512]);
    desk.put("EMPTY", b"");
    desk
}

fn content() -> Vec<u8> {
    (0..1025).map(|n| (n % 251) as u8).collect()
}

/// Stores a table entry in copy 1 alone.
fn set(desk: &mut Desk, cluster: usize, value: u16) {
    set_value(&mut desk.image[512..1024], cluster, value);
}

/// What a rescue answers, and what it puts into a buffer of 2,000 bytes 7.
fn rescued(desk: &Desk, name: &[u8]) -> ((u32, u32), Vec<u8>) {
    let before = desk.image.clone();
    let mut out = vec![7; 2000];
    let answer = halves(rescue(&desk.image, name, &mut out));
    assert_eq!(desk.image, before);
    let rest = out.split_off(answer.1 as usize);
    assert!(rest.iter().all(|&byte| byte == 7));
    (answer, out)
}

fn refuses(desk: &Desk, name: &[u8], number: u32) {
    assert_eq!(rescued(desk, name), ((number, 0), Vec::new()));
}

fn gives(desk: &Desk, name: &[u8], bytes: &[u8]) {
    let answer = (0, bytes.len() as u32);
    assert_eq!(rescued(desk, name), (answer, bytes.to_vec()));
}

#[test]
fn refusals_in_order() {
    let mut desk = desk();
    desk.slot(0)[26] = 1;
    refuses(&desk, b"TARE", 5);
    refuses(&desk, b"NONE", 2);
    refuses(&desk, b"", 42);
    desk.image.pop();
    refuses(&desk, b"", 40);
    refuses(&desk, b"TARE", 40);
}

#[test]
fn on_a_sound_volume_what_read_gives() {
    let mut desk = desk();
    gives(&desk, b"tare.", &content());
    gives(&desk, b"DAY", &[9; 512]);
    gives(&desk, b"EMPTY", b"");
    let mut buffer = vec![7; 2000];
    assert_eq!(desk.open("TARE", 0), (0, 0));
    assert_eq!(desk.read(0, &mut buffer), (0, 1025));
    assert_eq!(buffer[..1025], content());
}

#[test]
fn out_may_be_shorter_than_the_file() {
    let desk = desk();
    for length in [0, 1, 511, 512, 513, 1024] {
        let mut out = vec![7; length];
        assert_eq!(rescue(&desk.image, b"TARE", &mut out), length as u64);
        assert_eq!(out, content()[..length]);
    }
}

#[test]
fn other_findings_are_no_hindrance() {
    // 2: the marks and the copies; copy 1 counts.
    let mut desk = desk();
    desk.image[513..515].fill(0);
    desk.image[1024..1536].fill(0);
    gives(&desk, b"TARE", &content());
    // 3: a value that means nothing, of a cluster that is not the file's.
    set(&mut desk, 20, 1);
    // 4: a second label, and an entry after one that was never used.
    desk.slot(10).fill(8);
    desk.slot(12).fill(8);
    // 5: another file's chain.
    set(&mut desk, 5, 0);
    refuses(&desk, b"DAY", 5);
    // 7: clusters in no chain.
    set(&mut desk, 30, 31);
    gives(&desk, b"TARE", &content());
    // 6: a cluster in two chains: both files are read through it.
    desk.slot(1)[26] = 4;
    gives(&desk, b"TARE", &content());
    assert_eq!(rescued(&desk, b"DAY").0, (0, 512));
    assert_eq!(desk.check().0, 2);
}

#[test]
fn chains_that_do_not_fit_the_size() {
    let spoilt: [fn(&mut Desk); 14] = [
        // A start of 0, 1, past the last cluster, or with bits above the 12.
        |desk| desk.slot(0)[26] = 0,
        |desk| desk.slot(0)[26] = 1,
        |desk| desk.slot(0)[26..28].copy_from_slice(&315_u16.to_le_bytes()),
        |desk| desk.slot(0)[27] = 0x10,
        // A value that is free, reserved, bad or nothing, too early an end, a
        // chain that goes on to nothing, one that circles.
        |desk| set(desk, 3, 0),
        |desk| set(desk, 4, 0xFF0),
        |desk| set(desk, 4, 0xFF6),
        |desk| set(desk, 4, 0xFF7),
        |desk| set(desk, 4, 1),
        |desk| set(desk, 3, 0xFFF),
        |desk| set(desk, 4, 6),
        |desk| set(desk, 4, 2),
        // A size that needs a cluster more, or more than there are.
        |desk| desk.slot(0)[29] = 6,
        |desk| desk.slot(0)[28..32].fill(0xFF),
    ];
    for spoil in spoilt {
        let mut desk = desk();
        spoil(&mut desk);
        refuses(&desk, b"TARE", 5);
        gives(&desk, b"DAY", &[9; 512]);
    }
    // Each end value is one.
    let mut desk = desk();
    for end in 0xFF8..=0xFFF {
        set(&mut desk, 4, end);
        gives(&desk, b"TARE", &content());
    }
}

/// The size may need fewer clusters than the chain has, but to its end the
/// chain must be good.
#[test]
fn chains_longer_than_the_size_needs() {
    let mut desk = desk();
    // Into the other file's cluster, which is shared then.
    set(&mut desk, 4, 5);
    gives(&desk, b"TARE", &content());
    for size in [0, 1, 512, 513, 1024] {
        desk.slot(0)[28..30].copy_from_slice(&(size as u16).to_le_bytes());
        set(&mut desk, 4, 0xFFF);
        gives(&desk, b"TARE", &content()[..size]);
        for value in [0, 1, 2, 3, 4, 6, 315, 0xFF0, 0xFF7] {
            set(&mut desk, 4, value);
            refuses(&desk, b"TARE", 5);
        }
    }
}

#[test]
fn size_0_with_a_start() {
    let mut desk = desk();
    for start in [1, 9, 314, 315, 0xFF0, 0xFF8, 0xFFF, 0x1002] {
        desk.slot(2)[26..28].copy_from_slice(&u16::to_le_bytes(start));
        refuses(&desk, b"EMPTY", 5);
    }
    desk.slot(2)[26..28].copy_from_slice(&[9, 0]);
    set(&mut desk, 9, 0xFF8);
    gives(&desk, b"EMPTY", b"");
    set(&mut desk, 9, 9);
    refuses(&desk, b"EMPTY", 5);
}

#[test]
fn the_lowest_plain_file_of_the_name_counts() {
    let mut desk = desk();
    let tare = desk.slot(0).to_vec();
    desk.slot(1)[..11].copy_from_slice(&tare[..11]);
    gives(&desk, b"TARE", &content());
    // A label of that name is none, nor is an erased or a never used entry.
    for (at, byte) in [(11, 0x08), (0, 0xE5), (0, 0x00)] {
        let mut other = desk.clone();
        other.slot(0)[at] = byte;
        gives(&other, b"TARE", &[9; 512]);
        other.slot(1)[at] = byte;
        refuses(&other, b"TARE", 2);
    }
}
