//! The refusal table of the specification: which calls each line is about.

use super::tally::TORN;
use crate::volume::answer::Refusal::{self, *};

/// A line of the table.
pub struct Line {
    pub refusal: Refusal,
    /// A word for it, at the head of a column.
    pub word: &'static str,
    pub calls: &'static [&'static str],
}

const fn line(refusal: Refusal, word: &'static str, calls: &'static [&'static str]) -> Line {
    Line {
        refusal,
        word,
        calls,
    }
}

/// In the table's order. All calls but check refuse by 40; of these all but
/// format, entry and rescue by 41. A torn disk is of a kind.
#[rustfmt::skip]
pub const LINES: [Line; 18] = [
    line(NotOfAKind, "kind", &[
        "format", "free_space", "entry", "find", "open", "create", "read", "write", "seek", "close",
        "delete", "rename", "mode", "view_number", "rescue",
    ]),
    line(NotSound, "sound", &[
        "free_space", "find", "open", "create", "read", "write", "seek", "close",
        "delete", "rename", "mode", "view_number",
    ]),
    line(BadFunction, "func", &["seek", "mode"]),
    line(BadAccess, "access", &["open"]),
    line(BadName, "name", &[
        "find", "open", "create", "delete", "rename", "mode", "view_number", "rescue", TORN,
    ]),
    line(BadStamp, "stamp", &["create", "close"]),
    line(NotLive, "live", &["read", "write", "seek", "close"]),
    line(OutOfRange, "range", &["seek"]),
    line(NoSuchFile, "file", &[
        "open", "delete", "rename", "mode", "view_number", "rescue", TORN,
    ]),
    line(NoMoreFiles, "more", &["find"]),
    line(BadAttribute, "bits", &["create", "mode"]),
    line(FileOpen, "open", &["create", "delete", "rename", "mode"]),
    line(ReadOnly, "ronly", &["create", "delete", "rename", "open"]),
    line(NameTaken, "taken", &["rename"]),
    line(NoSlot, "slot", &["create"]),
    line(WrongAccess, "access", &["read", "write"]),
    line(BadChain, "chain", &["rescue", TORN]),
    line(NoPlace, "place", &["open", "create"]),
];

/// Whether the specification lets the call end so: well, or by the line.
pub fn allows(call: &str, refusal: Option<Refusal>) -> bool {
    let Some(refusal) = refusal else {
        return true;
    };
    let mut lines = LINES.iter().filter(|line| line.refusal == refusal);
    lines.any(|line| line.calls.contains(&call))
}
