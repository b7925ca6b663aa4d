//! What calls do with spare clusters: those of a file's chain that its size does
//! not need.

use crate::volume::kind::Kind;
use crate::volumes::calls::Call;
use crate::volumes::chains::{table, Chain};
use crate::volumes::root;

/// What the comparison must meet.
pub const DEEDS: [&str; 6] = [
    "write into spare clusters alone",
    "write into spare clusters and new ones",
    "create over a file with spare clusters",
    "create over a file of size 0 with a chain",
    "delete of a file with spare clusters",
    "delete of a file of size 0 with a chain",
];

/// Which of these a call did that ended well, by the image before it and after
/// it.
pub fn deed(call: &Call, before: &[u8], after: &[u8]) -> Option<&'static str> {
    let place = match call {
        Call::Write { .. } => written(before, after)?,
        Call::Create { .. } => 2 + ended(before, after)?,
        Call::Delete { .. } => 4 + ended(before, after)?,
        _ => return None,
    };
    Some(DEEDS[place])
}

/// 0 where a file grew over a cluster's border and no table byte was altered, 1
/// where it had spare clusters and new ones came to them.
fn written(before: &[u8], after: &[u8]) -> Option<usize> {
    let kind = Kind::of_image(before)?;
    let (old, new) = altered_file(kind, before, after)?;
    let tables = kind.copy_at(0)..kind.root_at();
    match before[tables.clone()] == after[tables] {
        true => (old.needed < new.needed).then_some(0),
        false => (old.needed < old.clusters.len()).then_some(1),
    }
}

/// 0 where a file with spare clusters was emptied or ended, 1 where it was one
/// of size 0 with a chain.
fn ended(before: &[u8], after: &[u8]) -> Option<usize> {
    let kind = Kind::of_image(before)?;
    let (old, _) = altered_file(kind, before, after)?;
    match old.is_of_size_0() {
        true => Some(1),
        false => old.has_spare().then_some(0),
    }
}

/// The chain, before and after, of the file whose entry was altered; none where
/// there was no file before.
pub fn altered_file(kind: &Kind, before: &[u8], after: &[u8]) -> Option<(Chain, Chain)> {
    let entries = |image| root(kind, image).chunks_exact(32);
    let mut both = entries(before).zip(entries(after));
    let (old, new) = both.find(|(old, new)| old != new)?;
    let chain = |image, entry| Chain::of(kind, &table(kind, image), entry);
    let was_there = ![0x00, 0xE5].contains(&old[0]);
    was_there.then(|| (chain(before, old), chain(after, new)))
}
