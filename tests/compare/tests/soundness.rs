//! Points of check that are easily missed.

mod common;

use common::{expect_words, halves, Desk};
use compare::volume::kind::{Kind, KINDS};
use compare::volume::table::{is_bad, is_end, is_reserved};
use compare::volume::{check, check_system};

/// Two files: LONG of three clusters in slot 0, SHORT of one in slot 1.
fn desk() -> Desk {
    let mut desk = Desk::new(0xFE);
    desk.put("LONG", &[1; 1025]);
    desk.put("SHORT", &[2; 512]);
    desk
}

/// Check's answer after a change of the two files' volume.
fn after(change: impl FnOnce(&mut Desk)) -> (u32, u32) {
    let mut desk = desk();
    change(&mut desk);
    desk.check()
}

fn put_start(desk: &mut Desk, slot: usize, start: u16) {
    desk.slot(slot)[26..28].copy_from_slice(&start.to_le_bytes());
}

fn put_size(desk: &mut Desk, slot: usize, size: u32) {
    desk.slot(slot)[28..32].copy_from_slice(&size.to_le_bytes());
}

#[test]
fn marks_and_copies_together() {
    let first = 512;
    let second = 1024;
    assert_eq!(after(|desk| desk.image[first + 1] = 0), (2, 1));
    assert_eq!(after(|desk| desk.image[second + 2] = 0), (2, 2));
    assert_eq!(after(|desk| desk.image[second] = 0xFF), (2, 0));
    assert_eq!(after(|desk| desk.image[second + 511] = 1), (2, 511));
    let both = |desk: &mut Desk| {
        desk.image[first + 2] = 0xF0;
        desk.image[second + 2] = 0xF0;
    };
    assert_eq!(after(both), (2, 2));
    let mark_and_difference = |desk: &mut Desk| {
        desk.image[first + 2] = 0;
        desk.image[second] = 0;
    };
    assert_eq!(after(mark_and_difference), (2, 0));
    let difference_above = |desk: &mut Desk| {
        both(desk);
        desk.image[second + 3] ^= 1;
    };
    assert_eq!(after(difference_above), (2, 2));
}

#[test]
fn table_bytes_past_the_last_entry_may_hold_anything() {
    // Entry 314 of FE ends in the low half of byte 472.
    let junk = |desk: &mut Desk| {
        for copy in [512, 1024] {
            desk.image[copy + 472] |= 0x10;
            desk.image[copy + 473..copy + 512].fill(0x01);
        }
    };
    assert_eq!(after(junk), (0, 0));
    let mut desk = desk();
    junk(&mut desk);
    let all = 512 * (313 - 4);
    assert_eq!(desk.create("ALL", 0), (0, 0));
    assert_eq!(desk.write(0, &vec![3; all + 1]), (0, all as u32));
    assert_eq!(desk.image[512 + 472], 0x1F);
    assert_eq!(desk.image[512 + 473..1024], [0x01; 39]);
    assert_eq!(desk.check(), (0, 0));
}

#[test]
fn values_that_mean_nothing() {
    for value in [0x001, 0x13B, 0xFEF] {
        assert_eq!(after(|desk| desk.set_value(200, value)), (3, 200));
    }
    assert_eq!(after(|desk| desk.set_value(314, 0x13B)), (3, 314));
    for value in 0xFF0..=0xFF7 {
        assert_eq!(after(|desk| desk.set_value(200, value)), (0, 0));
        // Bad or reserved is no end.
        assert_eq!(after(|desk| desk.set_value(4, value)), (5, 0));
    }
    for value in 0xFF8..=0xFFF {
        assert_eq!(after(|desk| desk.set_value(4, value)), (0, 0));
        assert_eq!(after(|desk| desk.set_value(200, value)), (7, 200));
    }
    // A cluster that names itself is a link.
    assert_eq!(after(|desk| desk.set_value(200, 200)), (7, 200));
    assert_eq!(after(|desk| desk.set_value(4, 4)), (5, 0));
}

#[test]
fn slots_after_a_never_used_one() {
    assert_eq!(after(|desk| desk.slot(3)[0] = 0xE5), (4, 3));
    assert_eq!(after(|desk| desk.slot(3)[0] = b'A'), (4, 3));
    assert_eq!(after(|desk| desk.slot(2)[1..].fill(0xFF)), (0, 0));
    let erased = |desk: &mut Desk| {
        desk.slot(2).fill(0xFF);
        desk.slot(2)[0] = 0xE5;
    };
    assert_eq!(after(erased), (0, 0));
}

#[test]
fn forbidden_starts_and_bits_of_files_and_labels() {
    let label = |desk: &mut Desk, first: u8, attribute: u8| {
        desk.slot(2)[0] = first;
        desk.slot(2)[11] = attribute;
    };
    assert_eq!(after(|desk| desk.slot(1)[0] = 0x2E), (4, 1));
    assert_eq!(after(|desk| label(desk, 0x2E, 0x08)), (4, 2));
    for bit in [0x10, 0x40, 0x80] {
        assert_eq!(after(|desk| desk.slot(1)[11] |= bit), (4, 1));
        assert_eq!(after(|desk| label(desk, b'L', 0x08 | bit)), (4, 2));
    }
    for attribute in [0x08, 0x0F, 0x2F] {
        assert_eq!(after(|desk| label(desk, b'L', attribute)), (0, 0));
    }
    assert_eq!(after(|desk| desk.slot(1)[11] = 0x27), (0, 0));
}

#[test]
fn second_labels_and_equal_names() {
    let label = |desk: &mut Desk, slot: usize, name: &[u8; 11]| {
        desk.slot(slot).fill(0xFF);
        desk.slot(slot)[..11].copy_from_slice(name);
        desk.slot(slot)[11] = 0x0F;
    };
    // The label may have a file's name; its other bytes mean nothing.
    assert_eq!(after(|desk| label(desk, 2, b"LONG       ")), (0, 0));
    let two = |desk: &mut Desk| {
        label(desk, 2, b"ONE        ");
        label(desk, 3, b"TWO        ");
    };
    assert_eq!(after(two), (4, 3));
    let same = |desk: &mut Desk| desk.slot(1)[..11].copy_from_slice(b"LONG       ");
    assert_eq!(after(same), (4, 1));
    let small = |desk: &mut Desk| desk.slot(1)[..11].copy_from_slice(b"long       ");
    assert_eq!(after(small), (0, 0));
    let erased = |desk: &mut Desk| {
        desk.slot(2)[..11].copy_from_slice(b"\xE5ONG       ");
        desk.slot(3)[..11].copy_from_slice(b"\xE5ONG       ");
    };
    assert_eq!(after(erased), (0, 0));
}

#[test]
fn starts_and_sizes() {
    for start in [0, 1, 3, 5, 6, 315, 0xFF8, 0xFFF, 0x1002, 0xFFFF] {
        assert_eq!(after(|desk| put_start(desk, 0, start)), (5, 0));
    }
    for size in [1537, 0xFFFF_FE01, u32::MAX] {
        assert_eq!(after(|desk| put_size(desk, 0, size)), (5, 0));
    }
    // As many clusters again, were they counted in 16 bits.
    assert_eq!(after(|desk| put_size(desk, 0, (65536 + 3) * 512)), (5, 0));
    // No clusters, were the rounding up to wrap.
    let wrapped = |desk: &mut Desk| {
        put_size(desk, 0, u32::MAX);
        put_start(desk, 0, 0);
    };
    assert_eq!(after(wrapped), (5, 0));
    let none = |desk: &mut Desk| {
        put_size(desk, 1, 0);
        put_start(desk, 1, 0);
    };
    assert_eq!(after(none), (7, 5));
}

/// Sizes that need none, some or all of the three clusters of LONG.
const SIZES: [u32; 8] = [0, 1, 512, 513, 1024, 1025, 1535, 1536];

#[test]
fn a_chain_may_be_longer_than_the_size_needs() {
    for size in SIZES {
        let mut desk = desk();
        put_size(&mut desk, 0, size);
        assert_eq!(desk.counts(), [2, 309, 4, 0, 0], "size {size}");
        // Cut off behind what the size needs, the rest is in no chain.
        let needed = size.div_ceil(512);
        match needed {
            0 => put_start(&mut desk, 0, 0),
            _ => desk.set_value(needed as u16 + 1, 0xFFF),
        }
        let lost = if needed < 3 { (7, needed + 2) } else { (0, 0) };
        assert_eq!(desk.check(), lost, "size {size}");
    }
}

#[test]
fn a_chain_without_end_is_broken_behind_enough_clusters_too() {
    for size in SIZES {
        let with = |cluster, value| {
            after(|desk| {
                put_size(desk, 0, size);
                desk.set_value(cluster, value);
            })
        };
        for (cluster, ring) in [(4, 4), (4, 3), (4, 2), (3, 3), (3, 2), (2, 2)] {
            assert_eq!(with(cluster, ring), (5, 0), "size {size}");
        }
        for cluster in [2, 3, 4] {
            for value in [0].into_iter().chain(0xFF0..=0xFF7) {
                assert_eq!(with(cluster, value), (5, 0), "size {size}");
            }
            // On to a cluster that is free.
            assert_eq!(with(cluster, 6), (5, 0), "size {size}");
        }
        for end in 0xFF8..=0xFFF {
            assert_eq!(with(4, end), (0, 0), "size {size}");
        }
    }
}

/// The two files, and in slot 2 one of size 0 with this start, after some
/// values were set.
fn with_size_0(start: u16, values: &[(u16, u16)]) -> Desk {
    let mut desk = desk();
    desk.put("EMPTY", b"");
    put_start(&mut desk, 2, start);
    for &(cluster, value) in values {
        desk.set_value(cluster, value);
    }
    desk
}

#[test]
fn size_0_may_have_a_whole_chain() {
    assert_eq!(with_size_0(0, &[]).counts(), [3, 309, 4, 0, 0]);
    let chains: [&[(u16, u16)]; 3] = [
        &[(9, 0xFF8)],
        &[(9, 6), (6, 0xFFF)],
        &[(9, 314), (314, 6), (6, 0xFFB)],
    ];
    for (length, chain) in (1..).zip(chains) {
        let counts = with_size_0(9, chain).counts();
        assert_eq!(counts, [3, 309 - length, 4 + length, 0, 0]);
        assert_eq!(with_size_0(0, chain).check().0, 7);
    }
}

#[test]
fn size_0_with_a_start_but_no_whole_chain() {
    // No cluster, or one that is free, bad or reserved.
    for start in [1, 6, 314, 315, 0xFF0, 0xFF7, 0xFF8, 0xFFF, 0x1000, 0x1005] {
        assert_eq!(with_size_0(start, &[]).check(), (5, 2), "start {start}");
    }
    for value in 0xFF0..=0xFF7 {
        assert_eq!(with_size_0(9, &[(9, value)]).check(), (5, 2));
        assert_eq!(with_size_0(9, &[(9, 8), (8, value)]).check(), (5, 2));
    }
    // Rings, and a chain that goes on to a free cluster.
    assert_eq!(with_size_0(9, &[(9, 9)]).check(), (5, 2));
    assert_eq!(with_size_0(9, &[(9, 8), (8, 9)]).check(), (5, 2));
    assert_eq!(with_size_0(9, &[(9, 8), (8, 8)]).check(), (5, 2));
    assert_eq!(with_size_0(9, &[(9, 8)]).check(), (5, 2));
    // The other files' clusters make a chain that is whole, but shared.
    assert_eq!(with_size_0(4, &[]).check(), (6, 4));
    assert_eq!(with_size_0(2, &[]).check(), (6, 2));
    assert_eq!(with_size_0(9, &[(9, 5)]).check(), (6, 5));
}

#[test]
fn shared_clusters_that_are_spare() {
    // LONG needs so many bytes of 2, 3 and 4; SHORT goes on from 5, or begins
    // elsewhere.
    let sharing = |long: u32, short: u32, start: u16, next: u16| {
        after(|desk| {
            put_size(desk, 0, long);
            put_size(desk, 1, short);
            put_start(desk, 1, start);
            desk.set_value(5, next);
        })
    };
    for (long, short) in [(512, 512), (0, 0), (0, 512), (512, 0)] {
        assert_eq!(sharing(long, short, 5, 4), (6, 4), "spare in both");
        assert_eq!(sharing(long, short, 5, 3), (6, 3), "spare in both");
    }
    assert_eq!(sharing(1025, 512, 5, 4), (6, 4), "spare in SHORT");
    assert_eq!(sharing(1025, 0, 5, 2), (6, 2), "spare in SHORT");
    assert_eq!(sharing(1024, 513, 5, 4), (6, 4), "spare in LONG");
    // Cluster 5 is then in no chain, but 6 comes before 7.
    assert_eq!(sharing(1024, 512, 4, 0xFFF), (6, 4), "spare in LONG");
    assert_eq!(sharing(0, 1025, 2, 0xFFF), (6, 2), "spare in LONG");
    // A chain that runs into another must be long enough all the same.
    assert_eq!(sharing(512, 1025, 5, 4), (5, 1));
    assert_eq!(sharing(512, 1025, 5, 3), (6, 3));
}

#[test]
fn shared_and_lost_clusters() {
    assert_eq!(after(|desk| put_start(desk, 1, 4)), (6, 4));
    // A lost cluster that names a file's cluster is lost, not shared.
    assert_eq!(after(|desk| desk.set_value(200, 2)), (7, 200));
    let two = |desk: &mut Desk| {
        desk.set_value(200, 0xFFF);
        desk.set_value(100, 200);
    };
    assert_eq!(after(two), (7, 100));
    let first_shares = |desk: &mut Desk| {
        desk.set_value(3, 5);
        desk.set_value(4, 0);
    };
    assert_eq!(after(first_shares), (6, 5));
}

/// Three files whose chains run together at different clusters.
#[test]
fn the_lowest_of_all_shared_clusters() {
    let mut desk = Desk::new(0xFE);
    desk.put("A", &[1; 512 * 4]);
    desk.put("B", &[1; 512 * 2]);
    desk.put("C", &[1; 512 * 3]);
    put_start(&mut desk, 1, 4);
    assert_eq!(desk.check(), (6, 4));
    put_start(&mut desk, 2, 3);
    assert_eq!(desk.check(), (6, 3));
    put_size(&mut desk, 2, 512 * 4);
    assert_eq!(desk.check(), (5, 2));
}

/// FD: 112 files that begin one cluster after the other in one chain of all
/// clusters, the last of them with this size.
fn one_chain_for_all(last_size: u32) -> Desk {
    let mut desk = Desk::new(0xFD);
    for cluster in 2..355 {
        desk.set_value(cluster, cluster + 1);
    }
    desk.set_value(355, 0xFFF);
    for slot in 0..112 {
        desk.slot(slot)[..11].copy_from_slice(format!("F{slot:<10}").as_bytes());
        // From the back, so that each walk adds to those before it.
        put_start(&mut desk, slot, 113 - slot as u16);
        put_size(&mut desk, slot, 1024 * (243 + slot as u32));
    }
    put_size(&mut desk, 111, last_size);
    desk
}

#[test]
fn many_files_in_one_chain() {
    let all = 354 * 1024;
    for size in [0, 1, all - 1024, all] {
        assert_eq!(one_chain_for_all(size).check(), (6, 3), "size {size}");
    }
    assert_eq!(one_chain_for_all(all + 1).check(), (5, 111));
    // A second file from the same cluster.
    let mut desk = one_chain_for_all(all);
    put_start(&mut desk, 110, 2);
    assert_eq!(desk.check(), (6, 2));
}

#[test]
fn system_areas() {
    let desk = desk();
    let short = (1, 0);
    for length in [0, 1, 512, 513, 7 * 512 - 1] {
        assert_eq!(halves(check_system(&desk.image[..length], &mut [])), short);
        assert_eq!(halves(check(&desk.image[..length], &mut [])), short);
    }
    for length in [7 * 512, 7 * 512 + 1, 320 * 512 - 1, 320 * 512] {
        assert_eq!(check_system(&desk.image[..length], &mut []), 0);
    }
    let mut unknown = desk.image.clone();
    unknown[512] = 0xF9;
    assert_eq!(halves(check_system(&unknown, &mut [])), short);
    // An image of another kind's length is of no kind, its area is sound.
    let mut long = desk.image.clone();
    long.resize(360 * 512, 0);
    assert_eq!(halves(check(&long, &mut [])), short);
    assert_eq!(check_system(&long, &mut []), 0);
}

type Check = fn(&[u8], &mut [u8]) -> u64;

/// Check and check on the system area, which here are given the same bytes.
const CHECKS: [Check; 2] = [check, check_system];

#[test]
fn out_is_filled_only_where_it_is_long_enough() {
    let mut desk = desk();
    for (cluster, value) in [(10, 0xFF7), (11, 0xFF0), (12, 0xFF6)] {
        desk.set_value(cluster, value);
    }
    for check in CHECKS {
        expect_words(&[2, 306, 4, 1, 2], 0, |out| check(&desk.image, out));
    }
}

#[test]
fn out_is_left_as_it_came_where_the_volume_is_not_sound() {
    let mut desk = desk();
    desk.set_value(99, 0xFF7);
    desk.set_value(100, 0xFFF);
    for check in CHECKS {
        for length in 0..=24 {
            let mut out = [7; 24];
            let answer = check(&desk.image, &mut out[..length]);
            assert_eq!(halves(answer), (7, 100));
            assert_eq!(out, [7; 24], "out of {length} bytes");
        }
    }
}

/// What check must answer, and count, where a blank volume's last cluster has
/// this value.
fn by_the_values_meaning(kind: &Kind, value: u16) -> ((u32, u32), [u32; 5]) {
    let last = kind.last_cluster() as u32;
    let free = kind.clusters() as u32;
    match u32::from(value) {
        0 => ((0, 0), [0, free, 0, 0, 0]),
        link if 2 <= link && link <= last => ((7, last), [0; 5]),
        0xFF0..=0xFF6 => ((0, 0), [0, free - 1, 0, 0, 1]),
        0xFF7 => ((0, 0), [0, free - 1, 0, 1, 0]),
        0xFF8..=0xFFF => ((7, last), [0; 5]),
        _ => ((3, last), [0; 5]),
    }
}

#[test]
fn a_value_has_one_meaning() {
    for kind in &KINDS {
        let mut desk = Desk::new(u32::from(kind.byte));
        for value in 0..0x1000 {
            let meanings = [
                value == 0,
                kind.has_cluster(value),
                is_reserved(value),
                is_bad(value),
                is_end(value),
            ];
            let meant = meanings.iter().filter(|&&meant| meant).count();
            desk.set_value(kind.last_cluster() as u16, value);
            let mut out = [0; 20];
            let answer = halves(check(&desk.image, &mut out));
            assert_eq!(meant, usize::from(answer.0 != 3), "{value:03X}");
            let expected = by_the_values_meaning(kind, value);
            assert_eq!((answer, common::words(&out)), expected, "{value:03X}");
        }
    }
}

#[test]
fn each_bad_or_reserved_value_once() {
    for kind in &KINDS {
        let clusters = kind.clusters() as u32;
        for first in [2, kind.last_cluster() as u16 - 7] {
            let mut desk = Desk::new(u32::from(kind.byte));
            for (cluster, value) in (first..).zip(0xFF0..=0xFF7) {
                desk.set_value(cluster, value);
            }
            assert_eq!(desk.counts(), [0, clusters - 8, 0, 1, 7]);
        }
    }
}
