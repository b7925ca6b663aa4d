//! A plan of a volume, and the image laid out from it.

use super::random::Random;
use crate::volume::kind::{Kind, SECTOR};

/// A plain file as planned.
#[derive(Clone, Debug)]
pub struct File {
    pub slot: usize,
    /// Its clusters in the order of its bytes; behind those that the content
    /// needs there may be spare ones.
    pub clusters: Vec<u16>,
    pub content: Vec<u8>,
}

impl File {
    /// How many clusters the content needs.
    pub fn needed(&self, kind: &Kind) -> usize {
        self.content.len().div_ceil(kind.cluster_bytes())
    }
}

/// All that stands on a volume.
#[derive(Clone, Debug)]
pub struct Plan {
    pub kind: &'static Kind,
    /// The value of each cluster's table entry; 0 and 1 are not used.
    pub values: Vec<u16>,
    /// Table bytes in both copies wherever no entry lies.
    pub table_rest: Vec<u8>,
    pub slots: Vec<[u8; 32]>,
    pub files: Vec<File>,
    /// Decides the boot sector and the bytes of the data that no file holds.
    pub noise: u64,
}

impl Plan {
    /// A volume without files.
    pub fn blank(kind: &'static Kind) -> Plan {
        Plan {
            kind,
            values: vec![0; kind.last_cluster() + 1],
            table_rest: vec![0; kind.fat_bytes()],
            slots: vec![[0; 32]; kind.root_entries()],
            files: Vec::new(),
            noise: 0,
        }
    }

    /// Plans a file: its entry, and its chain with this end value.
    pub fn add_file(&mut self, file: File, name: [u8; 11], attribute: u8, end: u16) {
        let entry = &mut self.slots[file.slot];
        entry[..11].copy_from_slice(&name);
        entry[11] = attribute;
        self.files.push(file);
        self.store_file(self.files.len() - 1, end);
    }

    /// Stores a file's start, size and chain as its plan has them.
    pub fn store_file(&mut self, index: usize, end: u16) {
        let file = &self.files[index];
        let entry = &mut self.slots[file.slot];
        let start = file.clusters.first().copied().unwrap_or(0);
        entry[26..28].copy_from_slice(&start.to_le_bytes());
        entry[28..32].copy_from_slice(&(file.content.len() as u32).to_le_bytes());
        for pair in file.clusters.windows(2) {
            self.values[usize::from(pair[0])] = pair[1];
        }
        if let Some(&last) = file.clusters.last() {
            self.values[usize::from(last)] = end;
        }
    }

    /// The clusters that are free.
    pub fn free_clusters(&self) -> Vec<u16> {
        let all = 2..=self.kind.last_cluster() as u16;
        all.filter(|&n| self.values[usize::from(n)] == 0).collect()
    }

    /// One copy of the table.
    fn copy(&self) -> Vec<u8> {
        let mut bytes = self.table_rest.clone();
        bytes[..3].copy_from_slice(&[self.kind.byte, 0xFF, 0xFF]);
        for (n, &value) in self.values.iter().enumerate().skip(2) {
            for bit in 0..12 {
                let at = 12 * n + bit;
                let mask = 1 << (at % 8);
                bytes[at / 8] &= !mask;
                if value >> bit & 1 == 1 {
                    bytes[at / 8] |= mask;
                }
            }
        }
        bytes
    }

    /// The bytes from the first copy to the end of the root.
    pub fn tables_and_root(&self) -> Vec<u8> {
        let copy = self.copy();
        [&copy[..], &copy, &self.slots.concat()].concat()
    }

    /// The image of the volume.
    pub fn image(&self) -> Vec<u8> {
        let mut image = vec![0; self.kind.image_bytes()];
        if self.noise != 0 {
            Random::new(self.noise).fill_area(&mut image);
        }
        let system = self.tables_and_root();
        image[SECTOR..SECTOR + system.len()].copy_from_slice(&system);
        for file in &self.files {
            let pieces = file.content.chunks(self.kind.cluster_bytes());
            for (piece, &cluster) in pieces.zip(&file.clusters) {
                let at = self.kind.cluster_at(cluster);
                image[at..at + piece.len()].copy_from_slice(piece);
            }
        }
        image
    }
}
