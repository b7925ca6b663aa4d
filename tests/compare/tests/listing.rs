//! The listing's text beyond the printed case.

mod common;

use common::Desk;
use compare::listing::listing;

/// A volume with one empty file of these name bytes, time and date.
fn listed(name: &[u8; 11], time: u16, date: u16) -> String {
    let mut desk = Desk::new(0xFC);
    let slot = desk.slot(0);
    slot[..11].copy_from_slice(name);
    slot[22..24].copy_from_slice(&time.to_le_bytes());
    slot[24..26].copy_from_slice(&date.to_le_bytes());
    let text = listing(&desk.image);
    let (head, file) = text.split_at(text.find("file=").expect("a file"));
    assert_eq!(
        head,
        "sound=yes\nkind=FC\nclusters=351\nfree=351\nheld=0\nbad=0\nreserved=0\nfiles=1\n"
    );
    file.to_string()
}

fn named(name: &[u8; 11]) -> String {
    let text = listed(name, 0, 0x21);
    let line = text.lines().next().expect("a line");
    line.strip_prefix("file=").expect("a name").to_string()
}

#[test]
fn names() {
    assert_eq!(named(b"TARE       "), "TARE");
    assert_eq!(named(b"TARE    KEY"), "TARE.KEY");
    assert_eq!(named(b"A B     C D"), "A?B.C?D");
    assert_eq!(named(b" A       D "), "?A.?D");
    assert_eq!(named(b"        EXT"), ".EXT");
    assert_eq!(named(b"           "), "");
    assert_eq!(named(b"a.b\xE5\x00\xFF~^`+,"), "????????.???");
    assert_eq!(named(b"$&#@!%'()-{"), "$&#@!%'(.)-{");
    assert_eq!(named(b"}_09AZ  I  "), "}_09AZ.I");
}

#[test]
fn dates_and_times_each_by_itself() {
    let date_and_time = |time, date| {
        let text = listed(b"A          ", time, date);
        let lines: Vec<&str> = text.lines().collect();
        assert_eq!(lines[1..4], ["attr=00", "size=0", "start=0"]);
        format!("{} {}", lines[4], lines[5])
    };
    let date = |year: u16, month: u16, day: u16| year << 9 | month << 5 | day;
    let time = |hour: u16, minute: u16, step: u16| hour << 11 | minute << 5 | step;
    assert_eq!(date_and_time(0, 0), "date=none time=00:00:00");
    assert_eq!(
        date_and_time(time(23, 59, 29), date(119, 12, 31)),
        "date=2099-12-31 time=23:59:58"
    );
    assert_eq!(
        date_and_time(time(24, 0, 0), date(0, 2, 31)),
        "date=1980-02-31 time=none"
    );
    assert_eq!(
        date_and_time(time(0, 60, 0), date(120, 1, 1)),
        "date=none time=none"
    );
    assert_eq!(
        date_and_time(time(0, 0, 30), date(20, 13, 1)),
        "date=none time=none"
    );
    assert_eq!(
        date_and_time(time(1, 2, 3), date(20, 0, 1)),
        "date=none time=01:02:06"
    );
    assert_eq!(
        date_and_time(time(1, 2, 3), date(20, 1, 0)),
        "date=none time=01:02:06"
    );
}

#[test]
fn labels_erased_slots_and_a_bad_cluster() {
    let mut desk = Desk::new(0xFD);
    desk.put("A", b"1");
    desk.put("B", b"2");
    desk.put("LABEL", b"");
    assert_eq!(desk.delete("A"), (0, 0));
    desk.slot(2)[11] = 0x28;
    desk.slot(2)[26..].fill(0x99);
    desk.set_value(355, 0xFF7);
    let text = "sound=yes\nkind=FD\nclusters=354\nfree=352\nheld=1\nbad=1\nreserved=0\nfiles=1\n\
        file=B\nattr=20\nsize=1\nstart=3\ndate=1983-09-01\ntime=06:40:00\n";
    assert_eq!(listing(&desk.image), text);
}

#[test]
fn bad_and_reserved_clusters() {
    let mut desk = Desk::new(0xFE);
    let head = "sound=yes\nkind=FE\nclusters=313\n";
    for (cluster, value, counts) in [
        (2, 0xFF6, "free=312\nheld=0\nbad=0\nreserved=1\nfiles=0\n"),
        (314, 0xFF7, "free=311\nheld=0\nbad=1\nreserved=1\nfiles=0\n"),
        (3, 0xFF0, "free=310\nheld=0\nbad=1\nreserved=2\nfiles=0\n"),
        (313, 0xFF0, "free=309\nheld=0\nbad=1\nreserved=3\nfiles=0\n"),
    ] {
        desk.set_value(cluster, value);
        assert_eq!(listing(&desk.image), format!("{head}{counts}"));
    }
}

/// Spare clusters are held; the size and the start are as stored.
#[test]
fn spare_clusters() {
    let mut desk = Desk::new(0xFE);
    desk.put("A", &[1; 1025]);
    desk.put("B", b"");
    desk.slot(0)[28..30].copy_from_slice(&[1, 0]);
    desk.slot(1)[26] = 9;
    desk.set_value(9, 0xFF8);
    let stamp = "date=1983-09-01\ntime=06:40:00\n";
    let text = format!(
        "sound=yes\nkind=FE\nclusters=313\nfree=309\nheld=4\nbad=0\nreserved=0\nfiles=2\n\
        file=A\nattr=20\nsize=1\nstart=2\n{stamp}file=B\nattr=00\nsize=0\nstart=9\n{stamp}"
    );
    assert_eq!(listing(&desk.image), text);
}

#[test]
fn findings() {
    assert_eq!(listing(&[]), "sound=no\nfinding=1\nplace=0\n");
    let mut desk = Desk::new(0xFF);
    assert_eq!(
        listing(&desk.image[..5119]),
        "sound=no\nfinding=1\nplace=0\n"
    );
    let blank = "sound=yes\nkind=FF\nclusters=315\nfree=315\nheld=0\nbad=0\nreserved=0\nfiles=0\n";
    assert_eq!(listing(&desk.image[..5120]), blank);
    desk.set_value(316, 0xFFF);
    assert_eq!(listing(&desk.image), "sound=no\nfinding=7\nplace=316\n");
}
