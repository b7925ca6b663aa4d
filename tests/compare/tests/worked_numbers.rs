//! Every worked number of the specification.

mod common;

use common::{Desk, EVENING, MORNING};
use compare::listing::listing;
use compare::volume::answer::Refusal;
use compare::volume::kind::{Kind, KINDS, MOST_CLUSTERS, MOST_SLOTS};
use compare::volume::stamps::{date_parts, time_parts, Stamp};
use compare::volume::table::{set_value, value};
use compare::volume::{free_space, open};

fn kind(byte: u32) -> &'static Kind {
    Kind::of_number(byte).expect("one of the four kinds")
}

#[test]
fn the_table_of_kinds() {
    let rows = [
        [0xFE, 320, 1, 4, 64, 1, 7, 313, 314],
        [0xFF, 640, 1, 7, 112, 2, 10, 315, 316],
        [0xFC, 360, 2, 4, 64, 1, 9, 351, 352],
        [0xFD, 720, 2, 7, 112, 2, 12, 354, 355],
    ];
    for (kind, row) in KINDS.iter().zip(rows) {
        let ours = [
            usize::from(kind.byte),
            kind.sectors,
            kind.fat_sectors,
            kind.root_sectors,
            kind.root_entries(),
            kind.sectors_per_cluster,
            kind.first_data_sector(),
            kind.clusters(),
            kind.last_cluster(),
        ];
        assert_eq!(ours, row);
        assert!(kind.clusters() <= MOST_CLUSTERS && kind.root_entries() <= MOST_SLOTS);
        assert!(kind.system_bytes() <= 6144);
    }
}

#[test]
fn p1_p2_table_entries() {
    let mut copy = [0xFD, 0xFF, 0xFF, 0x03, 0x40, 0x00];
    assert_eq!(value(&copy, 2), 0x003);
    assert_eq!(value(&copy, 3), 0x004);
    set_value(&mut copy, 3, 0xFFF);
    assert_eq!(copy[3..], [0x03, 0xF0, 0xFF]);
}

#[test]
fn p3_p4_p5_cluster_sectors() {
    assert_eq!(kind(0xFD).cluster_sector(2), 12);
    assert_eq!(kind(0xFD).cluster_sector(355), 718);
    assert_eq!(kind(0xFE).cluster_sector(314), 319);
}

#[test]
fn p6_p7_p8_stamps() {
    assert_eq!(Stamp::from(EVENING).words(), Ok((0x90BD, 0x0721)));
    assert_eq!(
        Stamp::from([18, 5, 30, 3, 9, 1]).words(),
        Err(Refusal::BadStamp)
    );
    assert_eq!(time_parts(0x90BD), Some((18, 5, 29)));
    assert_eq!(date_parts(0x0721), Some((3, 9, 1)));
}

#[test]
fn p9_p10_seek() {
    let mut desk = Desk::new(0xFE);
    desk.create("A", 0);
    assert_eq!(desk.seek(0, 0, 10), (0, 10));
    desk.refuses(1, |desk| desk.seek(0, 1, -11));
    assert_eq!(desk.seek(0, 1, -10), (0, 0));
}

#[test]
fn p11_p12_p13_clusters_for_a_size() {
    assert_eq!(
        [512, 513, 0].map(|size| kind(0xFE).clusters_for(size)),
        [1, 2, 0]
    );
    assert_eq!(kind(0xFE).clusters_for(u32::MAX), 8_388_608);
    assert_eq!(kind(0xFD).clusters_for(u32::MAX), 4_194_304);
}

#[test]
fn a_blank_fd_and_its_room() {
    let mut desk = Desk::new(0xFD);
    let mut out = [0; 16];
    assert_eq!(free_space(&desk.image, &mut out), 354);
    assert_eq!(common::words(&out), [354, 354, 512, 2]);
    desk.create("ALL", 0);
    assert_eq!(desk.write(0, &[7; 362_497]), (0, 362_496));
    assert_eq!(desk.write(0, &[7; 362_497]), (0, 0));
    assert_eq!(desk.write(0, &[7]), (0, 0));
    assert_eq!(desk.counts(), [1, 0, 354, 0, 0]);
}

#[test]
fn a_full_root_and_a_new_name() {
    for kind in &KINDS {
        let mut desk = Desk::new(u32::from(kind.byte));
        for number in 0..kind.root_entries() {
            desk.put(&format!("F{number}"), &[]);
        }
        desk.refuses(5, |desk| desk.create("NEW", 0));
        // An old name still can be made anew.
        assert_eq!(desk.create("F63", 0), (0, 0));
    }
}

#[test]
fn an_open_table_of_length_0() {
    let mut desk = Desk::new(0xFE);
    desk.put("A", b"x");
    desk.table.clear();
    desk.refuses(4, |desk| desk.open("A", 0));
    desk.refuses(4, |desk| desk.create("B", 0));
    assert_eq!(open(&desk.image, &mut [0; 15], b"A", 0), 4 << 32);
}

/// The case of the listing program.
fn tare_and_day() -> Desk {
    let mut desk = Desk::new(0xFE);
    for (name, attribute, length, stamp) in [
        ("TARE.KEY", 1, 40, MORNING),
        ("DAY001.LOG", 0, 1025, EVENING),
    ] {
        assert_eq!(desk.create_at(name.as_bytes(), attribute, stamp), (0, 0));
        assert_eq!(desk.write(0, &vec![0x42; length]), (0, length as u32));
        assert_eq!(desk.close_at(0, stamp), (0, 0));
    }
    desk
}

#[test]
fn the_listing_case() {
    let desk = tare_and_day();
    let begin = [0xFE, 0xFF, 0xFF, 0xFF, 0x4F, 0x00, 0x05, 0xF0, 0xFF];
    assert_eq!(desk.image[512..521], begin);
    assert_eq!(desk.image[1024..1033], begin);
    let text = "sound=yes\nkind=FE\nclusters=313\nfree=309\nheld=4\nbad=0\nreserved=0\nfiles=2\n\
        file=TARE.KEY\nattr=21\nsize=40\nstart=2\ndate=1983-09-01\ntime=06:40:00\n\
        file=DAY001.LOG\nattr=20\nsize=1025\nstart=3\ndate=1983-09-01\ntime=18:05:58\n";
    assert_eq!(listing(&desk.image[..7 * 512]), text);
    assert_eq!(listing(&desk.image), text);
}
