//! Files with spare clusters: a chain is longer than the size needs.

mod common;

use common::{record, Desk};
use compare::comparison::deeds::{deed, DEEDS};
use compare::volume::{rescue, view, view_number};
use compare::volumes::calls::{perform, Call, Scene};

/// Where the data begins, and where the bytes of clusters 7, 3 and 9 lie.
const DATA: usize = 7 * 512;
const CLUSTERS: [usize; 3] = [DATA + 5 * 512, DATA + 512, DATA + 7 * 512];

/// FE: a file LONG with the clusters 7, 3 and 9, which ends by FF9, of a size
/// that may need fewer. Its bytes are 1, all others of the data DD. Place 0 has
/// it open, with the pointer at its end.
fn reserving(size: u32) -> Desk {
    let mut desk = Desk::new(0xFE);
    desk.put("LONG", b"");
    for (cluster, value) in [(7, 3), (3, 9), (9, 0xFF9)] {
        desk.set_value(cluster, value);
    }
    desk.image[DATA..].fill(0xDD);
    desk.slot(0)[26] = 7;
    desk.slot(0)[28..].copy_from_slice(&size.to_le_bytes());
    put_bytes(&mut desk, 0, &vec![1; size as usize]);
    desk.record(0).copy_from_slice(&record(1, 2, 0, 0, size));
    assert_eq!(desk.counts(), [1, 310, 3, 0, 0]);
    desk
}

/// Puts bytes into these three clusters, from byte `from` of the chain on.
fn put_bytes(desk: &mut Desk, from: usize, bytes: &[u8]) {
    for (at, &byte) in (from..).zip(bytes) {
        desk.image[CLUSTERS[at / 512] + at % 512] = byte;
    }
}

/// A write that fits alters the size and its own bytes, and no table entry.
#[test]
fn a_write_uses_spare_clusters_in_the_chains_order() {
    for (size, length) in [
        (0, 1),
        (0, 513),
        (0, 1536),
        (100, 1436),
        (512, 1),
        (600, 500),
    ] {
        let mut desk = reserving(size);
        let data: Vec<u8> = (0..length).map(|n| n as u8 | 0x80).collect();
        let mut expected = desk.clone();
        put_bytes(&mut expected, size as usize, &data);
        let end = size + length;
        expected.slot(0)[28..].copy_from_slice(&end.to_le_bytes());
        expected.record(0).copy_from_slice(&record(1, 2, 1, 0, end));
        assert_eq!(desk.write(0, &data), (0, length));
        assert!(desk == expected, "{length} bytes at {size}");
        assert_eq!(desk.counts(), [1, 310, 3, 0, 0]);
    }
}

#[test]
fn new_clusters_come_behind_the_spare_ones() {
    for size in [0, 100, 1024, 1536] {
        let mut desk = reserving(size);
        desk.set_value(4, 0xFF7);
        assert_eq!(desk.seek(0, 0, 1536), (0, 1536));
        assert_eq!(desk.write(0, &[2; 513]), (0, 513));
        let values = [2, 3, 4, 5, 6, 7, 8, 9].map(|n| desk.value(n));
        assert_eq!(values, [5, 9, 0xFF7, 0xFFF, 0, 3, 0, 2]);
        assert_eq!(desk.slot(0)[26..], [7, 0, 1, 8, 0, 0]);
        assert_eq!(desk.counts(), [1, 307, 5, 1, 0]);
    }
}

/// Own clusters are all of them, on a full volume too.
#[test]
fn the_room_has_the_spare_clusters() {
    for size in [0, 100, 1024] {
        let mut desk = reserving(size);
        let free = 310 * 512;
        assert_eq!(desk.create("ALL", 0), (0, 1));
        assert_eq!(desk.write(1, &vec![3; free + 1]), (0, free as u32));
        let tables = desk.image[512..1536].to_vec();
        assert_eq!(desk.write(0, &[2; 1537]), (0, 1536 - size));
        assert!(desk.image[512..1536] == tables);
        let before = desk.clone();
        assert_eq!(desk.write(0, b"x"), (0, 0));
        assert!(desk == before);
        assert_eq!(desk.counts(), [2, 0, 313, 0, 0]);
    }
    // With some free ones it is both together.
    let mut desk = reserving(100);
    assert_eq!(desk.write(0, &[2; 313 * 512]), (0, 313 * 512 - 100));
    assert_eq!(desk.counts(), [1, 0, 313, 0, 0]);
}

#[test]
fn a_gap_in_spare_clusters_becomes_zero() {
    for (size, pointer) in [(0, 1), (0, 1300), (100, 500), (100, 512), (513, 1530)] {
        let mut desk = reserving(size);
        let mut expected = desk.clone();
        put_bytes(
            &mut expected,
            size as usize,
            &vec![0; pointer - size as usize],
        );
        put_bytes(&mut expected, pointer, b"ab");
        let end = pointer as u32 + 2;
        expected.slot(0)[28..].copy_from_slice(&end.to_le_bytes());
        expected.record(0).copy_from_slice(&record(1, 2, 1, 0, end));
        assert_eq!(desk.seek(0, 0, pointer as i32), (0, pointer as u32));
        assert_eq!(desk.write(0, b"ab"), (0, 2));
        assert!(desk == expected, "at {pointer}, size {size}");
    }
    // Over the spare ones into a new one.
    let mut desk = reserving(100);
    assert_eq!(desk.seek(0, 0, 1600), (0, 1600));
    assert_eq!(desk.write(0, b"ab"), (0, 2));
    let mut content = vec![9; 2000];
    assert_eq!(desk.seek(0, 0, 0), (0, 0));
    assert_eq!(desk.read(0, &mut content), (0, 1602));
    let expected = [vec![1; 100], vec![0; 1500], b"ab".to_vec(), vec![9; 398]];
    assert!(content == expected.concat());
    assert_eq!(desk.image[DATA + 66..DATA + 512], [0xDD; 446]);
}

#[test]
fn a_write_inside_the_size_leaves_size_and_spare_clusters() {
    let mut desk = reserving(600);
    for (pointer, data) in [(0, b"abc"), (510, b"def"), (597, b"ghi")] {
        assert_eq!(desk.seek(0, 0, pointer), (0, pointer as u32));
        let mut expected = desk.clone();
        put_bytes(&mut expected, pointer as usize, data);
        let end = pointer as u32 + 3;
        expected.record(0).copy_from_slice(&record(1, 2, 1, 0, end));
        assert_eq!(desk.write(0, data), (0, 3));
        assert!(desk == expected, "at {pointer}");
    }
    let before = desk.clone();
    assert_eq!(desk.write(0, b""), (0, 0));
    assert!(desk == before);
}

#[test]
fn reading_ends_with_the_size_not_with_the_chain() {
    for size in [0, 100, 512, 600] {
        let mut desk = reserving(size);
        let count = size as usize;
        assert_eq!(desk.seek(0, 2, 0), (0, size));
        assert_eq!(desk.read(0, &mut [0; 9]), (0, 0));
        assert_eq!(desk.seek(0, 0, 0), (0, 0));
        let mut buffer = vec![9; 2000];
        assert_eq!(desk.read(0, &mut buffer), (0, size));
        assert!(buffer == [vec![1; count], vec![9; 2000 - count]].concat());
        let mut out = vec![9; 2000];
        assert_eq!(rescue(&desk.image, b"LONG", &mut out), u64::from(size));
        assert!(out == buffer);
        for offset in [size, size.max(1023), 1536, u32::MAX] {
            assert!(view(&desk.image, b"LONG", offset).is_empty());
            assert_eq!(view_number(&desk.image, b"LONG", offset), 0);
        }
        if let Some(last) = count.checked_sub(1) {
            let part = view(&desk.image, b"LONG", last as u32);
            assert_eq!(part, [1]);
        }
    }
}

/// Create and delete free the whole chain, and leave the data.
#[test]
fn spare_clusters_become_free_with_the_file() {
    let blank = Desk::new(0xFE).image[512..1536].to_vec();
    for size in [0, 100, 512, 1024, 1025] {
        let mut desk = reserving(size);
        desk.table.fill(0);
        let data = desk.image[DATA..].to_vec();
        let mut emptied = desk.clone();
        assert_eq!(emptied.create("LONG", 0), (0, 0));
        assert_eq!(emptied.slot(0)[26..], [0; 6]);
        assert_eq!(emptied.counts(), [1, 313, 0, 0, 0]);
        assert_eq!(desk.delete("LONG"), (0, 0));
        assert_eq!(desk.slot(0)[26], 7);
        assert_eq!(desk.counts(), [0, 313, 0, 0, 0]);
        for after in [emptied, desk] {
            assert!(after.image[512..1536] == blank, "size {size}");
            assert!(after.image[DATA..] == data, "size {size}");
        }
    }
}

/// What a call on the file did by the images before and after it.
fn deed_of(call: &Call, desk: Desk) -> Option<&'static str> {
    let before = desk.image.clone();
    let mut scene = Scene {
        image: desk.image,
        table: desk.table,
        buffer: Vec::new(),
    };
    assert_eq!(perform(call, &mut scene) >> 32, 0);
    deed(call, &before, &scene.image)
}

/// The comparison counts these.
#[test]
fn deeds_on_spare_clusters() {
    let closed = |size| {
        let mut desk = reserving(size);
        desk.table.fill(0);
        desk
    };
    let write = |length| Call::Write {
        handle: 0,
        data: vec![5; length],
    };
    for (size, length, expected) in [
        (0, 1, Some(DEEDS[0])),
        (100, 412, None),
        (100, 413, Some(DEEDS[0])),
        (100, 1436, Some(DEEDS[0])),
        (100, 1437, Some(DEEDS[1])),
        (0, 1537, Some(DEEDS[1])),
        (1024, 0, None),
        (1025, 511, None),
        (1025, 512, None),
    ] {
        let found = deed_of(&write(length), reserving(size));
        assert_eq!(found, expected, "{length} bytes at {size}");
    }
    let delete = |name: &str| Call::Delete { name: name.into() };
    let create = |name: &str| Call::Create {
        name: name.into(),
        attribute: 0,
        stamp: [0, 0, 0, 0, 1, 1],
    };
    for (size, spare) in [(0, Some(1)), (1024, Some(0)), (1025, None)] {
        let deed = |first: usize| spare.map(|spare| DEEDS[first + spare]);
        assert_eq!(deed_of(&create("LONG"), closed(size)), deed(2));
        assert_eq!(deed_of(&delete("LONG"), closed(size)), deed(4));
        assert_eq!(deed_of(&create("NEW"), closed(size)), None);
    }
}
