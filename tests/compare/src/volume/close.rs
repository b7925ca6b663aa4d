//! Close: frees the place and stamps a file that was written.

use super::answer::{answer, Refusal};
use super::check::sound_volume;
use super::directory::{entries, entry_mut, set_stamp, ARCHIVE};
use super::open_table::{live, store_closed};
use super::stamps::Stamp;

#[allow(clippy::too_many_arguments)]
pub fn close(
    image: &mut [u8],
    table: &mut [u8],
    handle: u32,
    hour: u32,
    minute: u32,
    step: u32,
    year: u32,
    month: u32,
    day: u32,
) -> u64 {
    let stamp = Stamp::from([hour, minute, step, year, month, day]);
    answer(closed(image, table, handle, stamp))
}

pub fn closed(
    image: &mut [u8],
    table: &mut [u8],
    handle: u32,
    stamp: Stamp,
) -> Result<u32, Refusal> {
    let volume = sound_volume(image)?;
    let (time, date) = stamp.words()?;
    let open = live(entries(volume.kind, image), table, handle)?;
    if open.written {
        let entry = entry_mut(volume.kind, image, open.slot);
        entry[11] |= ARCHIVE;
        set_stamp(entry, time, date);
    }
    store_closed(table, open.place);
    Ok(0)
}
