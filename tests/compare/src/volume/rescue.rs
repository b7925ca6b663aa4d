//! Rescue: a file of a volume that need not be sound, by its own chain.

use super::answer::{answer, Refusal};
use super::directory::{entries, find, size, start, Entry};
use super::kind::Kind;
use super::names::stored;
use super::table::{is_end, value};

pub fn rescue(image: &[u8], name: &[u8], out: &mut [u8]) -> u64 {
    answer(rescued(image, name, out))
}

pub fn rescued(image: &[u8], name: &[u8], out: &mut [u8]) -> Result<u32, Refusal> {
    let kind = Kind::of_image(image).ok_or(Refusal::NotOfAKind)?;
    let name = stored(name)?;
    let entries = entries(kind, image);
    let slot = find(entries, &name).ok_or(Refusal::NoSuchFile)?;
    let entry = &entries[slot];
    let clusters = good_chain(kind, image, entry).ok_or(Refusal::BadChain)?;

    let count = out.len().min(size(entry) as usize);
    let pieces = out[..count].chunks_mut(kind.cluster_bytes());
    for (piece, cluster) in pieces.zip(clusters) {
        let at = kind.cluster_at(cluster);
        piece.copy_from_slice(&image[at..at + piece.len()]);
    }
    Ok(count as u32)
}

/// The clusters of a file by copy 1 of the table; none where finding 5 holds.
fn good_chain(kind: &Kind, image: &[u8], entry: &Entry) -> Option<Vec<u16>> {
    let copy = &image[kind.copy_at(0)..][..kind.fat_bytes()];
    let needed = kind.clusters_for(size(entry)) as usize;
    if start(entry) == 0 {
        return (needed == 0).then(Vec::new);
    }
    let mut clusters = Vec::new();
    let mut next = start(entry);
    // One cluster more than there are is one met before.
    while kind.has_cluster(next) && clusters.len() <= kind.clusters() {
        clusters.push(next);
        next = value(copy, usize::from(next));
    }
    // A start with an end value names no cluster.
    let enough = needed.max(1) <= clusters.len();
    (enough && is_end(next)).then_some(clusters)
}
