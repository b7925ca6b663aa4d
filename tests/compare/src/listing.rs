//! The text that the listing program prints for a system area.

use std::fmt::Write;

use crate::volume::check::{examined_system_area, Sound};
use crate::volume::directory::{
    attribute, date, entries, is_plain_file, name, size, start, time, Entry,
};
use crate::volume::names::is_name_byte;
use crate::volume::stamps::{date_parts, time_parts};

/// The listing, each line ended by one byte 0A. Bytes past the area are
/// ignored.
pub fn listing(area: &[u8]) -> String {
    let mut text = String::new();
    let written = match examined_system_area(area) {
        Ok(volume) => list(&mut text, &volume, area),
        Err(finding) => {
            let (number, place) = (finding.number, finding.place);
            write!(text, "sound=no\nfinding={number}\nplace={place}\n")
        }
    };
    written.expect("a string takes all that is written to it");
    text
}

fn list(text: &mut String, volume: &Sound, area: &[u8]) -> std::fmt::Result {
    let counts = volume.counts;
    writeln!(text, "sound=yes")?;
    writeln!(text, "kind={:02X}", volume.kind.byte)?;
    writeln!(text, "clusters={}", volume.kind.clusters())?;
    writeln!(text, "free={}", counts.free)?;
    writeln!(text, "held={}", counts.held)?;
    writeln!(text, "bad={}", counts.bad)?;
    writeln!(text, "reserved={}", counts.reserved)?;
    writeln!(text, "files={}", counts.files)?;
    let files = entries(volume.kind, area)
        .iter()
        .filter(|entry| is_plain_file(entry));
    for entry in files {
        list_file(text, entry)?;
    }
    Ok(())
}

fn list_file(text: &mut String, entry: &Entry) -> std::fmt::Result {
    writeln!(text, "file={}", printed_name(name(entry)))?;
    writeln!(text, "attr={:02X}", attribute(entry))?;
    writeln!(text, "size={}", size(entry))?;
    writeln!(text, "start={}", start(entry))?;
    match date_parts(date(entry)) {
        Some((year, month, day)) => writeln!(text, "date={}-{month:02}-{day:02}", 1980 + year)?,
        None => writeln!(text, "date=none")?,
    }
    match time_parts(time(entry)) {
        Some((hour, minute, step)) => {
            writeln!(text, "time={hour:02}:{minute:02}:{:02}", 2 * step)
        }
        None => writeln!(text, "time=none"),
    }
}

/// Both parts without their trailing spaces, a dot only before an extension.
fn printed_name(name: &[u8]) -> String {
    let (base, extension) = name.split_at(8);
    let mut printed = printed_part(base);
    let extension = printed_part(extension);
    if !extension.is_empty() {
        printed.push('.');
        printed.push_str(&extension);
    }
    printed
}

fn printed_part(part: &[u8]) -> String {
    let end = part
        .iter()
        .rposition(|&byte| byte != b' ')
        .map_or(0, |last| last + 1);
    let shown = |&byte: &u8| {
        if is_name_byte(byte) {
            char::from(byte)
        } else {
            '?'
        }
    };
    part[..end].iter().map(shown).collect()
}
