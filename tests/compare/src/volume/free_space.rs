//! Free space: free clusters, all clusters, 512, sectors per cluster.

use super::answer::{answer, put_words, Refusal};
use super::check::sound_volume;
use super::kind::SECTOR;

pub fn free_space(image: &[u8], out: &mut [u8]) -> u64 {
    answer(counted(image, out))
}

pub fn counted(image: &[u8], out: &mut [u8]) -> Result<u32, Refusal> {
    let volume = sound_volume(image)?;
    let free = volume.counts.free;
    let clusters = volume.kind.clusters() as u32;
    let per_cluster = volume.kind.sectors_per_cluster as u32;
    put_words(out, [free, clusters, SECTOR as u32, per_cluster]);
    Ok(free)
}
