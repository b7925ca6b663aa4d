//! Check once more, each finding straight from its sentence, however slow.

use std::collections::BTreeMap;

use compare::volume::check::Counts;
use compare::volume::kind::Kind;

struct Volume<'a> {
    kind: &'a Kind,
    first: &'a [u8],
    second: &'a [u8],
    root: Vec<&'a [u8]>,
}

/// The first finding with its place, or the counts.
pub fn check_area(kind: &Kind, area: &[u8]) -> Result<Counts, (u32, u32)> {
    let fat = kind.fat_sectors * 512;
    let volume = Volume {
        kind,
        first: &area[512..512 + fat],
        second: &area[512 + fat..512 + 2 * fat],
        root: area[512 + 2 * fat..kind.first_data_sector() * 512]
            .chunks(32)
            .collect(),
    };
    let findings: [fn(&Volume) -> Option<usize>; 6] =
        [marks_and_copies, values, directory, chains, shared, lost];
    for (number, look) in (2..).zip(findings) {
        if let Some(place) = look(&volume) {
            return Err((number, place as u32));
        }
    }
    Ok(volume.counts())
}

impl Volume<'_> {
    fn entry(&self, n: usize) -> usize {
        let at = 3 * n / 2;
        let word = usize::from(self.first[at]) + 256 * usize::from(self.first[at + 1]);
        if n.is_multiple_of(2) {
            word % 4096
        } else {
            word / 16
        }
    }

    fn clusters(&self) -> std::ops::RangeInclusive<usize> {
        2..=self.kind.last_cluster()
    }

    fn live(&self, slot: usize) -> bool {
        ![0x00, 0xE5].contains(&self.root[slot][0])
    }

    fn label(&self, slot: usize) -> bool {
        self.live(slot) && self.root[slot][11] & 8 != 0
    }

    fn plain(&self, slot: usize) -> bool {
        self.live(slot) && !self.label(slot)
    }

    fn files(&self) -> impl Iterator<Item = usize> + '_ {
        (0..self.root.len()).filter(|&slot| self.plain(slot))
    }

    fn number(&self, slot: usize, at: usize, bytes: usize) -> u64 {
        (0..bytes)
            .map(|n| u64::from(self.root[slot][at + n]) << (8 * n))
            .sum()
    }

    fn needed(&self, slot: usize) -> u64 {
        let bytes = (self.kind.sectors_per_cluster * 512) as u64;
        self.number(slot, 28, 4).div_ceil(bytes)
    }

    /// The chain of a file, if it is as finding 5 wants it.
    fn chain(&self, slot: usize) -> Option<Vec<usize>> {
        let needed = self.needed(slot);
        let start = self.number(slot, 26, 2) as usize;
        if start == 0 {
            return (needed == 0).then(Vec::new);
        }
        let mut list = vec![start];
        loop {
            let last = list[list.len() - 1];
            if list.len() > self.kind.clusters() || !self.clusters().contains(&last) {
                return None;
            }
            match self.entry(last) {
                0xFF8..=0xFFF => return (list.len() as u64 >= needed).then_some(list),
                next => list.push(next),
            }
        }
    }

    /// How many files' chains a cluster is in.
    fn uses(&self) -> BTreeMap<usize, usize> {
        let mut uses = BTreeMap::new();
        for cluster in self.files().filter_map(|slot| self.chain(slot)).flatten() {
            *uses.entry(cluster).or_insert(0) += 1;
        }
        uses
    }

    fn counts(&self) -> Counts {
        let chains = self.files().filter_map(|slot| self.chain(slot));
        let number = |low, high| {
            let within = |&n: &usize| (low..=high).contains(&self.entry(n));
            self.clusters().filter(within).count() as u32
        };
        Counts {
            files: self.files().count() as u32,
            free: number(0, 0),
            held: chains.map(|chain| chain.len() as u32).sum(),
            bad: number(0xFF7, 0xFF7),
            reserved: number(0xFF0, 0xFF6),
        }
    }
}

fn marks_and_copies(volume: &Volume) -> Option<usize> {
    (0..volume.first.len()).find(|&at| {
        let mark = (at == 1 || at == 2) && volume.first[at] != 0xFF;
        mark || volume.first[at] != volume.second[at]
    })
}

fn values(volume: &Volume) -> Option<usize> {
    volume.clusters().find(|&n| match volume.entry(n) {
        0 | 0xFF0..=0xFFF => false,
        value => !volume.clusters().contains(&value),
    })
}

fn directory(volume: &Volume) -> Option<usize> {
    (0..volume.root.len()).find(|&slot| {
        let entry = volume.root[slot];
        let after = entry[0] != 0 && (0..slot).any(|lower| volume.root[lower][0] == 0);
        let bad = volume.live(slot) && (entry[0] == 0x2E || entry[11] & 0xD0 != 0);
        let second = volume.label(slot) && (0..slot).any(|lower| volume.label(lower));
        let same = |lower| volume.plain(lower) && volume.root[lower][..11] == entry[..11];
        after || bad || second || volume.plain(slot) && (0..slot).any(same)
    })
}

fn chains(volume: &Volume) -> Option<usize> {
    volume.files().find(|&slot| volume.chain(slot).is_none())
}

fn shared(volume: &Volume) -> Option<usize> {
    volume
        .uses()
        .into_iter()
        .find(|&(_, times)| times > 1)
        .map(|(cluster, _)| cluster)
}

fn lost(volume: &Volume) -> Option<usize> {
    let uses = volume.uses();
    volume.clusters().find(|n| {
        let taken = !matches!(volume.entry(*n), 0 | 0xFF0..=0xFF7);
        taken && !uses.contains_key(n)
    })
}
