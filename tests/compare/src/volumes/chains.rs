//! Files' chains, good and bad, and the sorts of volumes that have them.

use std::collections::BTreeMap;

use super::{root, word};
use crate::volume::kind::{Kind, MOST_CLUSTERS};
use crate::volume::table::{values, Values};

/// How the clusters from a file's start go on behind the last of them.
#[derive(Clone, Copy, Debug, PartialEq, Eq)]
pub enum Ending {
    End,
    /// A cluster that came before.
    Ring,
    /// A number that is neither a cluster nor an end.
    Nowhere,
}

/// What follows from a file's start, whatever the volume is like.
#[derive(Clone, Debug)]
pub struct Chain {
    pub start: u16,
    /// How many clusters the size needs.
    pub needed: usize,
    /// The clusters from the start on, each once.
    pub clusters: Vec<u16>,
    pub ending: Ending,
}

impl Chain {
    /// The chain of a file by its entry and the table's values.
    pub fn of(kind: &Kind, values: &Values, entry: &[u8]) -> Chain {
        let start = word(entry, 26) as u16;
        let mut clusters = Vec::new();
        let mut came = [false; MOST_CLUSTERS + 2];
        let mut next = start;
        while kind.has_cluster(next) && !came[usize::from(next)] {
            came[usize::from(next)] = true;
            clusters.push(next);
            next = values[usize::from(next)];
        }
        let ending = match next {
            0xFF8..=0xFFF if !clusters.is_empty() => Ending::End,
            _ if kind.has_cluster(next) => Ending::Ring,
            _ => Ending::Nowhere,
        };
        Chain {
            start,
            needed: (word(entry, 28) as usize).div_ceil(kind.cluster_bytes()),
            clusters,
            ending,
        }
    }

    /// Whether it has clusters that a size above 0 does not need.
    pub fn has_spare(&self) -> bool {
        0 < self.needed && self.needed < self.clusters.len()
    }

    /// Whether it has clusters though the size is 0.
    pub fn is_of_size_0(&self) -> bool {
        self.needed == 0 && !self.clusters.is_empty()
    }
}

/// The table's values of an image of this kind, by copy 1.
pub fn table(kind: &Kind, image: &[u8]) -> Values {
    values(kind, &image[kind.copy_at(0)..])
}

/// The slots of an image's plain files, and their chains; none where the image
/// ends before its root does.
pub fn chains(kind: &Kind, image: &[u8]) -> Vec<(usize, Chain)> {
    if root(kind, image).is_empty() {
        return Vec::new();
    }
    let values = table(kind, image);
    let is_file = |entry: &[u8]| ![0x00, 0xE5].contains(&entry[0]) && entry[11] & 0x08 == 0;
    let entries = root(kind, image).chunks_exact(32).enumerate();
    let files = entries.filter(|(_, entry)| is_file(entry));
    let chain = |(slot, entry)| (slot, Chain::of(kind, &values, entry));
    files.map(chain).collect()
}

/// Sorts of volumes that the comparison must meet, each named by what check
/// finds and why.
pub const SORTS: [&str; 11] = [
    "sound, with spare clusters",
    "sound, with size 0 and a chain",
    "finding 5 by start 0 with a size",
    "finding 5 by start 1 with size 0",
    "finding 5 by a start past the last cluster",
    "finding 5 by size 0 and a chain without end",
    "finding 5 by a chain too short",
    "finding 5 by a ring behind enough clusters",
    "finding 5 by a link out of range behind enough clusters",
    "finding 6 by clusters spare in both files",
    "finding 6 by clusters spare in one of them",
];

/// Which of the sorts an image of this kind is, on which check found this at
/// this place.
pub fn sorts(kind: &Kind, image: &[u8], finding: u32, place: u32) -> [bool; 11] {
    let mut sorts = [false; 11];
    let chains = || chains(kind, image);
    match finding {
        0 => sorts[..2].copy_from_slice(&sorts_of_sound(&chains())),
        5 => {
            let mut chains = chains().into_iter();
            if let Some((_, chain)) = chains.find(|(slot, _)| *slot == place as usize) {
                sorts[2..9].copy_from_slice(&sorts_of_broken(kind, &chain));
            }
        }
        6 => sorts[9..].copy_from_slice(&sorts_of_shared(&chains())),
        _ => {}
    }
    sorts
}

fn sorts_of_sound(chains: &[(usize, Chain)]) -> [bool; 2] {
    [
        chains.iter().any(|(_, chain)| chain.has_spare()),
        chains.iter().any(|(_, chain)| chain.is_of_size_0()),
    ]
}

/// Why a chain is not as finding 5 asks.
fn sorts_of_broken(kind: &Kind, chain: &Chain) -> [bool; 7] {
    let of_size_0 = chain.needed == 0;
    let enough = !of_size_0 && chain.needed <= chain.clusters.len();
    [
        chain.start == 0 && !of_size_0,
        chain.start == 1 && of_size_0,
        usize::from(chain.start) > kind.last_cluster(),
        chain.is_of_size_0(),
        chain.ending == Ending::End && !enough,
        chain.ending == Ending::Ring && enough,
        chain.ending == Ending::Nowhere && enough,
    ]
}

/// Whether all clusters in two chains are such that no file needs them, or that
/// one file needs some of them.
fn sorts_of_shared(chains: &[(usize, Chain)]) -> [bool; 2] {
    // How many chains a cluster is in, and how many files need it.
    let mut uses: BTreeMap<u16, (u32, u32)> = BTreeMap::new();
    for (_, chain) in chains {
        for (place, &cluster) in chain.clusters.iter().enumerate() {
            let (chains, needs) = uses.entry(cluster).or_default();
            *chains += 1;
            *needs += u32::from(place < chain.needed);
        }
    }
    let shared = uses.values().filter(|(chains, _)| *chains > 1);
    match shared.map(|(_, needs)| needs).max() {
        Some(0) => [true, false],
        Some(1) => [false, true],
        _ => [false, false],
    }
}
