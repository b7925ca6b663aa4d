//! Findings 5 to 7: the chains of all files.

use super::check::{finding, Finding};
use super::directory::{is_plain_file, size, start, Entry};
use super::kind::{Kind, MOST_CLUSTERS};
use super::table::{is_bad, is_end, is_reserved, Values};

/// The walks over all files' chains. Each cluster is visited once where it is
/// in one chain, three times at most where it is in several.
pub struct Walks<'a> {
    kind: &'a Kind,
    values: &'a Values,
    /// The file, counted from 1, whose walk came to a cluster first; 0: in no
    /// chain.
    first_file: [u8; MOST_CLUSTERS + 2],
    /// How many clusters a chain has from this one on, where it is in two
    /// files' chains; 0: it is not.
    shared: [u16; MOST_CLUSTERS + 2],
    lowest_shared: Option<u16>,
}

impl<'a> Walks<'a> {
    pub fn over(kind: &'a Kind, values: &'a Values) -> Walks<'a> {
        Walks {
            kind,
            values,
            first_file: [0; MOST_CLUSTERS + 2],
            shared: [0; MOST_CLUSTERS + 2],
            lowest_shared: None,
        }
    }

    /// Findings 5, 6 and 7; how many files there are and what they hold.
    pub fn walk_files(mut self, entries: &[Entry]) -> Result<(u32, u32), Finding> {
        let (mut files, mut held) = (0, 0);
        for (slot, entry) in entries.iter().enumerate() {
            if !is_plain_file(entry) {
                continue;
            }
            files += 1;
            let needed = self.kind.clusters_for(size(entry));
            match self.walk(files as u8, start(entry)) {
                Some(length) if needed <= length => held += length,
                _ => return Err(finding(5, slot)),
            }
        }
        if let Some(cluster) = self.lowest_shared {
            return Err(finding(6, usize::from(cluster)));
        }
        match self.lowest_lost() {
            Some(cluster) => Err(finding(7, cluster)),
            None => Ok((files, held)),
        }
    }

    /// The length of the file's chain, 0 where it has none; `None` where it is
    /// broken or has no end.
    fn walk(&mut self, file: u8, start: u16) -> Option<u32> {
        if start == 0 {
            return Some(0);
        }
        let mut length = 0;
        let mut cluster = start;
        while self.kind.has_cluster(cluster) {
            let here = usize::from(cluster);
            match self.first_file[here] {
                0 => self.first_file[here] = file,
                ring if ring == file => return None,
                _ => return Some(length + self.share_from(cluster)),
            }
            length += 1;
            cluster = self.values[here];
        }
        // A start with an end value names no cluster.
        (length > 0 && is_end(cluster)).then_some(length)
    }

    /// Marks the rest of another file's chain as shared, up to where it is
    /// marked already, and answers how many clusters the whole rest has.
    fn share_from(&mut self, first: u16) -> u32 {
        let mut unmarked = 0;
        let mut cluster = first;
        // That chain is whole: what is past the clusters is its end.
        let marked = loop {
            match self.shared.get(usize::from(cluster)) {
                Some(0) => unmarked += 1,
                rest => break rest.copied().unwrap_or(0),
            }
            cluster = self.values[usize::from(cluster)];
        };
        let length = marked + unmarked;
        cluster = first;
        for left in (marked + 1..=length).rev() {
            self.shared[usize::from(cluster)] = left;
            self.lowest_shared = self.lowest_shared.into_iter().chain([cluster]).min();
            cluster = self.values[usize::from(cluster)];
        }
        u32::from(length)
    }

    /// Finding 7: a link or an end in no chain.
    fn lowest_lost(&self) -> Option<usize> {
        (2..=self.kind.last_cluster()).find(|&cluster| {
            let value = self.values[cluster];
            self.first_file[cluster] == 0 && value != 0 && !is_bad(value) && !is_reserved(value)
        })
    }
}
