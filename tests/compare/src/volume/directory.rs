//! Directory entries of 32 bytes.

use super::kind::Kind;

pub const ENTRY: usize = 32;

pub const NEVER_USED: u8 = 0x00;
pub const ERASED: u8 = 0xE5;

pub const READ_ONLY: u8 = 0x01;
pub const HIDDEN: u8 = 0x02;
pub const SYSTEM: u8 = 0x04;
pub const LABEL: u8 = 0x08;
pub const ARCHIVE: u8 = 0x20;

/// The attribute bits that callers may give: 01, 02, 04, 20.
pub const CALLERS_BITS: u32 = 0x27;

/// An entry's bytes, whatever they hold.
pub type Entry = [u8; ENTRY];

/// Whether these attribute bits are a caller's to give.
pub const fn allowed(attribute: u32) -> bool {
    attribute & !CALLERS_BITS == 0
}

pub fn is_live(entry: &Entry) -> bool {
    entry[0] != NEVER_USED && entry[0] != ERASED
}

pub fn attribute(entry: &Entry) -> u8 {
    entry[11]
}

pub fn is_label(entry: &Entry) -> bool {
    is_live(entry) && attribute(entry) & LABEL != 0
}

pub fn is_plain_file(entry: &Entry) -> bool {
    is_live(entry) && attribute(entry) & LABEL == 0
}

pub fn is_read_only(entry: &Entry) -> bool {
    attribute(entry) & READ_ONLY != 0
}

/// The 11 name bytes.
pub fn name(entry: &Entry) -> &[u8] {
    &entry[..11]
}

pub fn time(entry: &Entry) -> u16 {
    u16::from_le_bytes([entry[22], entry[23]])
}

pub fn date(entry: &Entry) -> u16 {
    u16::from_le_bytes([entry[24], entry[25]])
}

pub fn start(entry: &Entry) -> u16 {
    u16::from_le_bytes([entry[26], entry[27]])
}

pub fn size(entry: &Entry) -> u32 {
    u32::from_le_bytes([entry[28], entry[29], entry[30], entry[31]])
}

pub fn set_stamp(entry: &mut Entry, time: u16, date: u16) {
    entry[22..24].copy_from_slice(&time.to_le_bytes());
    entry[24..26].copy_from_slice(&date.to_le_bytes());
}

pub fn set_extent(entry: &mut Entry, start: u16, size: u32) {
    entry[26..28].copy_from_slice(&start.to_le_bytes());
    entry[28..32].copy_from_slice(&size.to_le_bytes());
}

/// The root's entries in slot order. The area holds the root whole.
pub fn entries<'a>(kind: &Kind, area: &'a [u8]) -> &'a [Entry] {
    let root = &area[kind.root_at()..kind.system_bytes()];
    root.as_chunks().0
}

/// The entry at a slot of the root, to be altered.
pub fn entry_mut<'a>(kind: &Kind, image: &'a mut [u8], slot: usize) -> &'a mut Entry {
    let root = &mut image[kind.root_at()..kind.system_bytes()];
    &mut root.as_chunks_mut().0[slot]
}

/// The lowest slot of a plain file of this name. A sound volume has one at
/// most.
pub fn find(entries: &[Entry], wanted: &[u8; 11]) -> Option<usize> {
    entries
        .iter()
        .position(|entry| name(entry) == wanted && is_plain_file(entry))
}

/// The lowest slot that is erased or was never used.
pub fn lowest_vacant(entries: &[Entry]) -> Option<usize> {
    entries.iter().position(|entry| !is_live(entry))
}
