//! Random calls on a scene: such as may well end well, and odd ones.

use super::calls::{Call, Scene};
use super::chains::{chains, table, Chain};
use super::finds::random_find;
use super::random::Random;
use super::texts::{callers_form, good_name, noise_name, stamp, varied};
use super::{root, word};
use crate::volume::kind::{Kind, KINDS};
use crate::volume::names::is_name_byte;

/// A call that has a fair chance to end well on a scene of this kind.
pub fn random_call(kind: &Kind, scene: &Scene, random: &mut Random) -> Call {
    Caller {
        kind,
        scene,
        odds: 16,
        random,
    }
    .likely_call()
}

/// Any call, with several odd arguments at once.
pub fn odd_call(kind: &Kind, scene: &Scene, random: &mut Random) -> Call {
    let odds = random.between(2, 5);
    Caller {
        kind,
        scene,
        odds,
        random,
    }
    .any_call()
}

/// Mostly the name of some live entry of an image of this kind, as a caller may
/// write it; one in four times `odds` was never meant as a name.
pub fn random_name(kind: &Kind, image: &[u8], odds: usize, random: &mut Random) -> Vec<u8> {
    if random.one_in(4 * odds) {
        return noise_name(random);
    }
    let names = names_in_reach(kind, image, |_, _| true);
    let name = match random.choose(&names) {
        Some(stored) if !random.one_in(4) => callers_form(stored),
        _ => good_name(random),
    };
    varied(random, &name)
}

/// The names in a caller's reach, of the slots and entries that are wanted.
fn names_in_reach<'a>(
    kind: &Kind,
    image: &'a [u8],
    wanted: impl Fn(usize, &[u8]) -> bool,
) -> Vec<&'a [u8]> {
    let in_reach = |byte: &u8| *byte == b' ' || is_name_byte(*byte);
    let entries = root(kind, image).chunks_exact(32).enumerate();
    let wanted = entries.filter(|(slot, entry)| wanted(*slot, entry));
    let names = wanted.map(|(_, entry)| &entry[..11]);
    names.filter(|name| name.iter().all(in_reach)).collect()
}

/// Bytes for the buffer of a call that takes one.
pub fn buffer_for(call: &Call, random: &mut Random) -> Vec<u8> {
    let length = match call {
        Call::Read { .. } | Call::Rescue { .. } => {
            *random.pick(&[0, 1, 100, 511, 600, 1024, 2000, 5000, 400_000])
        }
        Call::Check | Call::CheckSystem => {
            // The counts have 20 bytes: each shorter length, and some longer.
            let any = random.below(25);
            *random.pick(&[any, any, 20, 100])
        }
        Call::FreeSpace | Call::Entry { .. } => {
            *random.pick(&[0, 1, 15, 16, 17, 21, 22, 23, 30, 100])
        }
        _ => 0,
    };
    let mut buffer = vec![0; length];
    random.fill_area(&mut buffer);
    buffer
}

/// Chooses arguments for a scene; one number in `odds` is an odd one.
struct Caller<'a> {
    kind: &'a Kind,
    scene: &'a Scene,
    odds: usize,
    random: &'a mut Random,
}

impl<'a> Caller<'a> {
    /// Mostly calls on open files; to open or create where nothing is open.
    fn likely_call(&mut self) -> Call {
        if self.live_places().is_empty() && !self.random.one_in(4) {
            return self.beginning_call();
        }
        match self.random.below(8) {
            0 => self.volume_call(),
            1 => self.beginning_call(),
            2 | 3 => self.name_call(),
            _ => self.handle_call(),
        }
    }

    /// The calls that take a table or a name more often than the others.
    fn any_call(&mut self) -> Call {
        match self.random.below(10) {
            0 => self.volume_call(),
            1 | 2 => self.beginning_call(),
            3..=6 => self.name_call(),
            _ => self.handle_call(),
        }
    }

    /// A call on the volume as a whole.
    fn volume_call(&mut self) -> Call {
        match self.random.below(32) {
            0 => self.some_format(),
            1..=7 => Call::CheckSystem,
            8..=15 => Call::FreeSpace,
            16..=23 => {
                let slot = self.random.below(120) as u32;
                Call::Entry {
                    slot: self.rarely_any(slot),
                }
            }
            _ => Call::Check,
        }
    }

    /// A call that opens a file.
    fn beginning_call(&mut self) -> Call {
        let name = self.name_to_open();
        match self.random.one_in(2) {
            true => Call::Open {
                name,
                access: self.rarely_above(3),
            },
            false => Call::Create {
                name,
                attribute: self.some_attribute(),
                stamp: stamp(self.random),
            },
        }
    }

    /// A call on a file by its name, or by a pattern.
    fn name_call(&mut self) -> Call {
        match self.random.below(6) {
            0 => Call::Delete {
                name: self.name_to_change(),
            },
            1 => Call::Rename {
                old: self.name_to_change(),
                new: self.new_name(),
            },
            2 => Call::Mode {
                name: self.some_name(),
                function: self.rarely_above(2),
                attribute: self.some_attribute(),
            },
            3 => Call::Rescue {
                name: self.some_name(),
            },
            4 => random_find(self.kind, &self.scene.image, self.odds, self.random),
            _ => {
                let offset = self.random.below(3000) as u32;
                Call::ViewNumber {
                    name: self.some_name(),
                    offset: self.rarely_any(offset),
                }
            }
        }
    }

    /// A call on an open file.
    fn handle_call(&mut self) -> Call {
        let handle = self.some_handle();
        // Where there is nothing to read, the pointer goes back more often.
        if self.is_at_the_end(handle) && self.random.one_in(4) {
            return self.seek_into_file(handle);
        }
        match self.random.below(20) {
            0..=4 => Call::Read { handle },
            5..=11 => self.some_write(handle),
            12..=15 => self.some_seek(handle),
            _ => Call::Close {
                handle,
                stamp: stamp(self.random),
            },
        }
    }

    /// The number, but one time in `odds` another.
    fn rarely_any(&mut self, number: u32) -> u32 {
        match self.random.below(3 * self.odds) {
            0 => self.random.word() as u32,
            1 => number.wrapping_add(1),
            2 => number.wrapping_add(256),
            _ => number,
        }
    }

    /// A number below `end`, or rarely any.
    fn rarely_above(&mut self, end: usize) -> u32 {
        let number = self.random.below(end) as u32;
        self.rarely_any(number)
    }

    fn some_name(&mut self) -> Vec<u8> {
        random_name(self.kind, &self.scene.image, self.odds, self.random)
    }

    /// Any name as often as one to change.
    fn name_to_open(&mut self) -> Vec<u8> {
        match self.random.one_in(2) {
            true => self.name_to_change(),
            false => self.some_name(),
        }
    }

    /// Half of the time the name of a file that is neither open nor read-only:
    /// mostly one with a chain and size 0, or else one with spare clusters.
    fn name_to_change(&mut self) -> Vec<u8> {
        let table = &self.scene.table;
        let is_open = |slot: usize| {
            let mut records = table.chunks_exact(16).take(16);
            records.any(|record| record[0] != 0 && word(record, 4) as usize == slot)
        };
        let wanted = |slot, entry: &[u8]| entry[11] & 0x09 == 0 && !is_open(slot);
        let any = names_in_reach(self.kind, &self.scene.image, wanted);
        let of_size_0 = self.names_with(Chain::is_of_size_0, wanted);
        let with_spare = self.names_with(Chain::has_spare, wanted);
        let rare = self
            .random
            .choose(&of_size_0)
            .or(self.random.choose(&with_spare));
        let any = self.random.choose(&any);
        let name = match self.random.one_in(4) {
            true => any,
            false => rare.or(any),
        };
        match name {
            Some(stored) if self.random.one_in(2) => callers_form(stored),
            _ => self.some_name(),
        }
    }

    /// The names in reach of the wanted files whose chains are so.
    fn names_with(
        &self,
        is_so: fn(&Chain) -> bool,
        wanted: impl Fn(usize, &[u8]) -> bool,
    ) -> Vec<&'a [u8]> {
        let files = chains(self.kind, &self.scene.image).into_iter();
        let files = files.filter(|(_, chain)| is_so(chain));
        let slots: Vec<usize> = files.map(|(slot, _)| slot).collect();
        let wanted = |slot, entry: &[u8]| slots.contains(&slot) && wanted(slot, entry);
        names_in_reach(self.kind, &self.scene.image, wanted)
    }

    /// A name for rename's second: mostly one that is not there yet.
    fn new_name(&mut self) -> Vec<u8> {
        match self.random.one_in(4) {
            true => self.some_name(),
            false => good_name(self.random),
        }
    }

    /// The entry at a slot; no bytes where there is none.
    fn entry(&self, slot: u32) -> &'a [u8] {
        let mut entries = root(self.kind, &self.scene.image).chunks_exact(32);
        entries.nth(slot as usize).unwrap_or(&[])
    }

    /// The record at a place; no bytes where there is none.
    fn record(&self, place: u32) -> &'a [u8] {
        let mut records = self.scene.table.chunks_exact(16);
        records.nth(place as usize).unwrap_or(&[])
    }

    /// The places that are used with a good access on a plain file.
    fn live_places(&self) -> Vec<u32> {
        let is_file = |entry: &[u8]| match entry {
            [] | [0x00 | 0xE5, ..] => false,
            _ => entry[11] & 0x08 == 0,
        };
        let is_live = |place: &u32| {
            let record = self.record(*place);
            record[0] != 0 && record[1] <= 2 && is_file(self.entry(word(record, 4)))
        };
        let places = 0..self.scene.table.len() as u32 / 16;
        places.filter(is_live).collect()
    }

    /// Mostly a live place.
    fn some_handle(&mut self) -> u32 {
        let any = self.random.below(20) as u32;
        if self.random.one_in(self.odds) {
            return any;
        }
        let handle = self.random.choose(&self.live_places()).unwrap_or(any);
        self.rarely_any(handle)
    }

    fn some_attribute(&mut self) -> u32 {
        let good = *self
            .random
            .pick(&[0, 0, 0x20, 0x02, 0x04, 0x26, 0x01, 0x27]);
        match self.random.below(2 * self.odds) {
            0 => good | 1 << self.random.below(32),
            1 => self.random.word() as u32,
            _ => good,
        }
    }

    /// A write to a file with spare clusters, or else to the handle's.
    fn some_write(&mut self, handle: u32) -> Call {
        let has_spare = |chain: Chain| chain.has_spare() || chain.is_of_size_0();
        let mut places = self.live_places();
        places.retain(|&place| {
            let takes_writes = self.record(place)[1] != 0;
            takes_writes && self.chain(place).is_some_and(has_spare)
        });
        let (handle, length) = match self.random.choose(&places) {
            Some(place) if !self.random.one_in(3) => (place, self.length_into_spare(place)),
            _ => (handle, self.some_length()),
        };
        let mut data = vec![0; length];
        self.random.fill_area(&mut data);
        Call::Write { handle, data }
    }

    /// A length that ends within the clusters of the handle's file, with them, or
    /// behind them.
    fn length_into_spare(&mut self, handle: u32) -> usize {
        let cluster = self.kind.cluster_bytes();
        let clusters = self.chain(handle).map_or(0, |chain| chain.clusters.len());
        let pointer = word(self.record(handle), 8) as usize;
        let rest = (clusters * cluster).saturating_sub(pointer);
        let within = self.random.below(rest + 1);
        *self
            .random
            .pick(&[within, rest, rest + 1, rest + 2 * cluster])
    }

    fn some_length(&mut self) -> usize {
        let cluster = self.kind.cluster_bytes();
        match self.random.below(32) {
            0 => 0,
            1 => 400_000,
            2..=4 => cluster,
            5..=7 => cluster + 1,
            8 => self.random.below(60 * cluster),
            9..=18 => self.random.below(4 * cluster),
            _ => self.random.below(100),
        }
    }

    fn some_seek(&mut self, handle: u32) -> Call {
        if self.random.one_in(4) {
            return self.seek_into_file(handle);
        }
        let method = self.rarely_above(3);
        let offset = match self.random.below(24) {
            0 => self.random.word() as i32,
            1 => *self.random.pick(&[i32::MIN, i32::MAX, -1, 0, 1]),
            2 => self.offset_to_an_end(handle),
            3 => self.random.below(400_000) as i32,
            4..=9 => -(self.random.below(2000) as i32),
            _ => self.random.below(3000) as i32,
        };
        Call::Seek {
            handle,
            method,
            offset,
        }
    }

    /// The size of the handle's file, 0 where there is none.
    fn size(&self, handle: u32) -> u32 {
        let slot = word(self.record(handle), 4);
        word(self.entry(slot), 28)
    }

    /// The chain of the handle's file; none where there is no such entry.
    fn chain(&self, handle: u32) -> Option<Chain> {
        match self.entry(word(self.record(handle), 4)) {
            [] => None,
            entry => {
                let values = table(self.kind, &self.scene.image);
                Some(Chain::of(self.kind, &values, entry))
            }
        }
    }

    fn is_at_the_end(&self, handle: u32) -> bool {
        word(self.record(handle), 8) >= self.size(handle)
    }

    /// To some byte of the handle's file, or its end.
    fn seek_into_file(&mut self, handle: u32) -> Call {
        let size = self.size(handle).min(400_000);
        let offset = self.random.between(0, size as usize) as i32;
        Call::Seek {
            handle,
            method: 0,
            offset,
        }
    }

    /// From the handle's pointer to the lowest or highest pointer, or one past
    /// it.
    fn offset_to_an_end(&mut self, handle: u32) -> i32 {
        let pointer = i64::from(word(self.record(handle), 8));
        let most = i64::from(u32::MAX);
        let target = *self.random.pick(&[0, -1, most, most + 1]);
        i32::try_from(target - pointer).unwrap_or(0)
    }

    fn some_format(&mut self) -> Call {
        let other = self.random.pick(&KINDS).byte;
        let wanted = *self.random.pick(&[self.kind.byte, self.kind.byte, other]);
        Call::Format {
            kind: self.rarely_any(u32::from(wanted)),
        }
    }
}
