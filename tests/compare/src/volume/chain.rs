//! The clusters of a file and the parts of the image where its bytes lie.

use std::ops::Range;

use super::kind::Kind;
use super::table::{set_in_both, Values};

/// Walks from a start cluster to the end value. The table is sound.
pub struct Chain<'a> {
    kind: &'static Kind,
    values: &'a Values,
    next: u16,
}

/// The clusters from `start`; none where it is 0.
pub fn chain<'a>(kind: &'static Kind, values: &'a Values, start: u16) -> Chain<'a> {
    Chain {
        kind,
        values,
        next: start,
    }
}

impl Iterator for Chain<'_> {
    type Item = u16;

    fn next(&mut self) -> Option<u16> {
        let cluster = self.next;
        if !self.kind.has_cluster(cluster) {
            return None;
        }
        self.next = self.values[usize::from(cluster)];
        Some(cluster)
    }
}

/// The parts of the image that hold the file's bytes `from..to`, in order.
pub fn parts<'a>(
    chain: Chain<'a>,
    from: usize,
    to: usize,
) -> impl Iterator<Item = Range<usize>> + 'a {
    let kind = chain.kind;
    let bytes = kind.cluster_bytes();
    let whole = chain.enumerate().skip(from / bytes);
    whole.map_while(move |(index, cluster)| {
        let first = from.max(index * bytes);
        let end = to.min((index + 1) * bytes);
        let at = kind.cluster_at(cluster) + first - index * bytes;
        (first < end).then(|| at..at + end - first)
    })
}

/// Frees the clusters from `start`.
pub fn free(kind: &'static Kind, values: &Values, image: &mut [u8], start: u16) {
    for cluster in chain(kind, values, start) {
        set_in_both(kind, image, cluster, 0);
    }
}
