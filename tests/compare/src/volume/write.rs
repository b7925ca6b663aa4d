//! Write: at the pointer, as many bytes as there is room for.

use super::answer::{answer, unless, Refusal};
use super::chain::{chain, parts};
use super::check::{sound_volume, Sound};
use super::directory::{entries, entry_mut, set_extent, size, start};
use super::open_table::{live, store_pointer, store_written, READ};
use super::table::{set_in_both, END};

pub fn write(image: &mut [u8], table: &mut [u8], handle: u32, data: &[u8]) -> u64 {
    answer(stored(image, table, handle, data))
}

pub fn stored(
    image: &mut [u8],
    table: &mut [u8],
    handle: u32,
    data: &[u8],
) -> Result<u32, Refusal> {
    let mut volume = sound_volume(image)?;
    let entries = entries(volume.kind, image);
    let open = live(entries, table, handle)?;
    unless(open.access != READ, Refusal::WrongAccess)?;

    let (start, size) = (start(&entries[open.slot]), size(&entries[open.slot]));
    let from = open.pointer as usize;
    // Where bytes begin to alter: the gap's first, or the data's.
    let begin = from.min(size as usize);
    let bytes = volume.kind.cluster_bytes();
    let own = own_clusters(&volume, start, begin / bytes);
    let room = (own.count + volume.counts.free as usize) * bytes;
    let data = &data[..room.saturating_sub(from).min(data.len())];
    if data.is_empty() {
        return Ok(0);
    }
    let to = from + data.len();
    let size = size.max(to as u32);
    let needed = volume.kind.clusters_for(size) as usize;
    let more = needed.saturating_sub(own.count);
    let added = extend(&mut volume, image, own.last, more);
    let first = own.first_altered.unwrap_or(added);
    put(&volume, image, first, begin % bytes, from - begin, data);
    let start = own.last.map_or(added, |_| start);
    set_extent(entry_mut(volume.kind, image, open.slot), start, size);
    store_pointer(table, open.place, to as u32);
    store_written(table, open.place);
    Ok(data.len() as u32)
}

/// A file's clusters before a write, the spare ones with them.
struct Own {
    count: usize,
    last: Option<u16>,
    /// The first in which bytes alter; none where that is a new one.
    first_altered: Option<u16>,
}

/// Walks the chain from `start`. Bytes alter from its cluster `altered` on,
/// counted from 0.
fn own_clusters(volume: &Sound, start: u16, altered: usize) -> Own {
    let mut own = Own {
        count: 0,
        last: None,
        first_altered: None,
    };
    for cluster in chain(volume.kind, &volume.values, start) {
        if own.count == altered {
            own.first_altered = Some(cluster);
        }
        own.count += 1;
        own.last = Some(cluster);
    }
    own
}

/// Adds so many of the lowest free clusters behind the last one, and answers
/// the first of them. Where none is added, it answers 0 and alters nothing.
fn extend(volume: &mut Sound, image: &mut [u8], last: Option<u16>, more: usize) -> u16 {
    let Sound { kind, values, .. } = volume;
    let (mut first, mut last) = (0, last);
    let mut candidate = 2;
    for _ in 0..more {
        while values[candidate] != 0 {
            candidate += 1;
        }
        let fresh = candidate as u16;
        if let Some(last) = last {
            values[usize::from(last)] = fresh;
            set_in_both(kind, image, last, fresh);
        }
        if first == 0 {
            first = fresh;
        }
        values[candidate] = END;
        last = Some(fresh);
    }
    if let (Some(last), true) = (last, more > 0) {
        set_in_both(kind, image, last, END);
    }
    first
}

/// Puts a gap of so many zeros, and the data behind it, from byte `at` of the
/// cluster `first` on.
fn put(volume: &Sound, image: &mut [u8], first: u16, at: usize, gap: usize, data: &[u8]) {
    let (mut zeros, mut rest) = (gap, data);
    let chain = chain(volume.kind, &volume.values, first);
    for part in parts(chain, at, at + gap + data.len()) {
        let here = zeros.min(part.len());
        let (zeroed, written) = image[part].split_at_mut(here);
        let (piece, after) = rest.split_at(written.len());
        zeroed.fill(0);
        written.copy_from_slice(piece);
        zeros -= here;
        rest = after;
    }
}
