//! The calls on a plan of a volume: files as rows of bytes, tables as lists.
//!
//! Slow and plain. It takes sound volumes only, and answers the refusal
//! number as an error.

use compare::volume::kind::SECTOR;
use compare::volumes::calls::Call;
use compare::volumes::plan::{File, Plan};

/// One used or unused place of the open table.
#[derive(Clone, Copy)]
struct Place {
    used: bool,
    access: u8,
    written: bool,
    slot: usize,
    pointer: usize,
}

/// A sound volume by its plan, its data bytes, and the open table's bytes.
#[derive(Clone)]
pub struct Model {
    pub plan: Plan,
    disk: Vec<u8>,
    pub table: Vec<u8>,
    pub buffer: Vec<u8>,
}

type Outcome = Result<usize, u32>;

/// Refuses by the number if the condition holds.
fn refuse_if(condition: bool, number: u32) -> Result<(), u32> {
    match condition {
        true => Err(number),
        false => Ok(()),
    }
}

/// A caller's name as stored, or 42.
fn stored(name: &[u8]) -> Result<[u8; 11], u32> {
    let parts: Vec<&[u8]> = name.split(|&byte| byte == b'.').collect();
    let extension = parts.get(1).copied().unwrap_or(b"");
    let lengths = (1..=8).contains(&parts[0].len()) && extension.len() <= 3;
    refuse_if(parts.len() > 2 || !lengths, 42)?;
    let mut stored = [b' '; 11];
    stored[..parts[0].len()].copy_from_slice(parts[0]);
    stored[8..8 + extension.len()].copy_from_slice(extension);
    let good = |byte: &u8| byte.is_ascii_alphanumeric() || b"$&#@!%'()-{}_".contains(byte);
    refuse_if(![parts[0], extension].concat().iter().all(good), 42)?;
    stored.make_ascii_uppercase();
    Ok(stored)
}

/// A name that a caller's pattern stands for, or 42: `any` is put for each `?`
/// and for all that `*` fills.
fn instance(pattern: &[u8], any: u8) -> Result<[u8; 11], u32> {
    let mut name = Vec::new();
    let lengths = [8, 3].into_iter().chain(std::iter::repeat(0));
    for (part, length) in pattern.split(|&byte| byte == b'.').zip(lengths) {
        name.push(match part.strip_suffix(b"*") {
            Some(front) if part.len() <= length => {
                [front, &vec![b'?'; length - front.len()]].concat()
            }
            _ => part.to_vec(),
        });
    }
    let name = name.join(&b'.');
    let put_any = |&byte: &u8| if byte == b'?' { any } else { byte };
    stored(&name.iter().map(put_any).collect::<Vec<u8>>())
}

/// Bytes 22 to 25 of a stamped entry, or 43.
fn stamped(stamp: &[u32; 6]) -> Result<[u8; 4], u32> {
    let ranges = [0..24, 0..60, 0..30, 0..120, 1..13, 1..32];
    let good = stamp
        .iter()
        .zip(ranges)
        .all(|(number, range)| range.contains(number));
    refuse_if(!good, 43)?;
    let [hour, minute, step, year, month, day] = stamp;
    let time = hour * 2048 + minute * 32 + step;
    let date = year * 512 + month * 32 + day;
    Ok((date * 65536 + time).to_le_bytes())
}

fn bad_attribute(attribute: u32) -> bool {
    (0..32).any(|bit| attribute >> bit & 1 == 1 && ![0, 1, 2, 5].contains(&bit))
}

impl Model {
    pub fn new(plan: Plan, table: Vec<u8>) -> Model {
        Model {
            disk: plan.image(),
            plan,
            table,
            buffer: Vec::new(),
        }
    }

    /// The whole image as it must be.
    pub fn image(&self) -> Vec<u8> {
        let mut image = self.disk.clone();
        let system = self.plan.tables_and_root();
        image[SECTOR..SECTOR + system.len()].copy_from_slice(&system);
        image
    }

    /// Makes the call and answers value or refusal number.
    pub fn apply(&mut self, call: &Call) -> Outcome {
        match call {
            Call::Format { kind } => self.format(*kind),
            Call::Check | Call::CheckSystem => Ok(self.check()),
            Call::FreeSpace => Ok(self.free_space()),
            Call::Entry { slot } => Ok(self.entry(*slot)),
            Call::Find {
                pattern,
                slot,
                mask,
            } => self.find_match(pattern, *slot, *mask),
            Call::Open { name, access } => self.open(name, *access),
            Call::Create {
                name,
                attribute,
                stamp,
            } => self.create(name, *attribute, stamp),
            Call::Read { handle } => self.read(*handle),
            Call::Write { handle, data } => self.write(*handle, data),
            Call::Seek {
                handle,
                method,
                offset,
            } => self.seek(*handle, *method, *offset),
            Call::Close { handle, stamp } => self.close(*handle, stamp),
            Call::Delete { name } => self.delete(name),
            Call::Rename { old, new } => self.rename(old, new),
            Call::Mode {
                name,
                function,
                attribute,
            } => self.mode(name, *function, *attribute),
            Call::ViewNumber { name, .. } => self.find(&stored(name)?).map(|_| 0),
            Call::Rescue { name } => self.rescue(name),
        }
    }

    /// The plan's number of the file of this name, or 2.
    fn find(&self, name: &[u8; 11]) -> Result<usize, u32> {
        let named = |file: &File| self.plan.slots[file.slot][..11] == *name;
        self.plan.files.iter().position(named).ok_or(2)
    }

    fn places(&self) -> Vec<Place> {
        let number = |bytes: &[u8]| (0..4).map(|n| (bytes[n] as usize) << (8 * n)).sum();
        let place = |record: &[u8]| Place {
            used: record[0] != 0,
            access: record[1],
            written: record[2] != 0,
            slot: number(&record[4..]),
            pointer: number(&record[8..]),
        };
        self.table.chunks_exact(16).take(16).map(place).collect()
    }

    fn is_open(&self, slot: usize) -> bool {
        self.places()
            .iter()
            .any(|place| place.used && place.slot == slot)
    }

    /// A live place with the plan's number of its file, or 6.
    fn live(&self, handle: u32) -> Result<(Place, usize), u32> {
        let place = *self.places().get(handle as usize).ok_or(6u32)?;
        refuse_if(!place.used || place.access > 2, 6)?;
        let file = self
            .plan
            .files
            .iter()
            .position(|file| file.slot == place.slot);
        Ok((place, file.ok_or(6u32)?))
    }

    fn attribute(&mut self, file: usize) -> &mut u8 {
        &mut self.plan.slots[self.plan.files[file].slot][11]
    }

    fn record(&mut self, place: usize) -> &mut [u8] {
        &mut self.table[16 * place..16 * place + 16]
    }

    fn occupy(&mut self, access: u8, slot: usize) -> Outcome {
        let place = self
            .places()
            .iter()
            .position(|place| !place.used)
            .ok_or(4u32)?;
        self.record(place).fill(0);
        self.record(place)[..5].copy_from_slice(&[1, access, 0, 0, slot as u8]);
        Ok(place)
    }

    fn set_pointer(&mut self, handle: u32, pointer: usize) {
        let bytes = (pointer as u32).to_le_bytes();
        self.record(handle as usize)[8..12].copy_from_slice(&bytes);
    }

    fn put_out(&mut self, bytes: &[u8]) {
        if self.buffer.len() >= bytes.len() {
            self.buffer[..bytes.len()].copy_from_slice(bytes);
        }
    }

    fn put_words<const COUNT: usize>(&mut self, words: [usize; COUNT]) {
        self.put_out(&words.map(|word| (word as u32).to_le_bytes()).concat());
    }

    fn format(&mut self, kind: u32) -> Outcome {
        refuse_if(kind != u32::from(self.plan.kind.byte), 40)?;
        self.plan = Plan::blank(self.plan.kind);
        let system = self.plan.kind.system_bytes();
        self.disk[..system].fill(0);
        self.disk[system..].fill(0xF6);
        Ok(0)
    }

    fn check(&mut self) -> usize {
        let held = self.plan.files.iter().map(|file| file.clusters.len()).sum();
        let free = self.plan.free_clusters().len();
        let is_bad = |value: &&u16| **value == 0xFF7;
        let bad = self.plan.values.iter().filter(is_bad).count();
        let reserved = self.plan.kind.clusters() - free - held - bad;
        self.put_words([self.plan.files.len(), free, held, bad, reserved]);
        0
    }

    fn free_space(&mut self) -> usize {
        let free = self.plan.free_clusters().len();
        let kind = self.plan.kind;
        self.put_words([free, kind.clusters(), 512, kind.sectors_per_cluster]);
        free
    }

    fn entry(&mut self, slot: u32) -> usize {
        match self.plan.slots.get(slot as usize) {
            Some(entry) if entry[0] != 0 && entry[0] != 0xE5 => {
                let shown = [&entry[..12], &entry[22..]].concat();
                self.put_out(&shown);
                1
            }
            _ => 0,
        }
    }

    /// The bytes in which two names of a pattern differ may be any.
    fn find_match(&self, pattern: &[u8], from: u32, mask: u32) -> Outcome {
        let (one, other) = (instance(pattern, b'A')?, instance(pattern, b'B')?);
        let is_match = |slot: &usize| {
            let entry = &self.plan.slots[*slot];
            let fits = |n| one[n] != other[n] || one[n] == entry[n];
            let shows = |bit: u32| u32::from(entry[11]) & bit <= mask & bit;
            (0..11).all(fits) && shows(0x02) && shows(0x04)
        };
        let slots = self.plan.files.iter().map(|file| file.slot);
        let slots = slots.filter(|&slot| slot >= from as usize);
        slots.filter(is_match).min().ok_or(18)
    }

    fn open(&mut self, name: &[u8], access: u32) -> Outcome {
        refuse_if(access > 2, 12)?;
        let file = self.find(&stored(name)?)?;
        refuse_if(access > 0 && *self.attribute(file) & 1 == 1, 5)?;
        self.occupy(access as u8, self.plan.files[file].slot)
    }

    fn create(&mut self, name: &[u8], attribute: u32, stamp: &[u32; 6]) -> Outcome {
        let name = stored(name)?;
        let stamp = stamped(stamp)?;
        refuse_if(bad_attribute(attribute), 5)?;
        let old = self.find(&name).ok();
        if let Some(file) = old {
            let closed = !self.is_open(self.plan.files[file].slot);
            refuse_if(!closed || *self.attribute(file) & 1 == 1, 5)?;
        }
        let vacant = self
            .plan
            .slots
            .iter()
            .position(|slot| slot[0] == 0 || slot[0] == 0xE5);
        let slot = old
            .map(|file| self.plan.files[file].slot)
            .or(vacant)
            .ok_or(5u32)?;
        let place = self.occupy(2, slot)?;
        if let Some(file) = old {
            self.free(file);
        }
        let front = [&name[..], &[attribute as u8]].concat();
        let entry = [front, vec![0; 10], stamp.to_vec(), vec![0; 6]].concat();
        self.plan.slots[slot].copy_from_slice(&entry);
        self.plan.files.push(File {
            slot,
            clusters: Vec::new(),
            content: Vec::new(),
        });
        Ok(place)
    }

    /// Ends a file: its clusters become free.
    fn free(&mut self, file: usize) -> File {
        let file = self.plan.files.remove(file);
        for &cluster in &file.clusters {
            self.plan.values[usize::from(cluster)] = 0;
        }
        file
    }

    fn read(&mut self, handle: u32) -> Outcome {
        let (place, file) = self.live(handle)?;
        refuse_if(place.access == 1, 5)?;
        let content = self.plan.files[file].content.clone();
        let rest = content.get(place.pointer..).unwrap_or(&[]);
        let count = rest.len().min(self.buffer.len());
        self.buffer[..count].copy_from_slice(&rest[..count]);
        self.set_pointer(handle, place.pointer + count);
        Ok(count)
    }

    fn rescue(&mut self, name: &[u8]) -> Outcome {
        let file = self.find(&stored(name)?)?;
        let content = &self.plan.files[file].content;
        let count = content.len().min(self.buffer.len());
        self.buffer[..count].copy_from_slice(&content[..count]);
        Ok(count)
    }

    fn write(&mut self, handle: u32, data: &[u8]) -> Outcome {
        let (place, file) = self.live(handle)?;
        refuse_if(place.access == 0, 5)?;
        let free = self.plan.free_clusters();
        let bytes = self.plan.kind.cluster_bytes();
        let planned = &mut self.plan.files[file];
        let room = (planned.clusters.len() + free.len()) * bytes;
        let count = data.len().min(room.saturating_sub(place.pointer));
        if count == 0 {
            return Ok(0);
        }
        let (old, end) = (planned.content.len(), place.pointer + count);
        planned.content.resize(old.max(end), 0);
        planned.content[place.pointer..end].copy_from_slice(&data[..count]);
        let needed = planned.content.len().div_ceil(bytes);
        let more = needed.saturating_sub(planned.clusters.len());
        let kept = planned
            .clusters
            .last()
            .map(|&last| self.plan.values[usize::from(last)]);
        planned.clusters.extend(&free[..more]);
        let end_value = if more > 0 {
            0xFFF
        } else {
            kept.unwrap_or(0xFFF)
        };
        self.plan.store_file(file, end_value);
        self.put_on_disk(file, old.min(place.pointer)..end);
        self.set_pointer(handle, end);
        self.record(handle as usize)[2] = 1;
        Ok(count)
    }

    fn put_on_disk(&mut self, file: usize, range: std::ops::Range<usize>) {
        let file = &self.plan.files[file];
        let bytes = self.plan.kind.cluster_bytes();
        for at in range {
            let sector = self.plan.kind.cluster_sector(file.clusters[at / bytes]);
            self.disk[512 * sector + at % bytes] = file.content[at];
        }
    }

    fn seek(&mut self, handle: u32, method: u32, offset: i32) -> Outcome {
        refuse_if(method > 2, 1)?;
        let (place, file) = self.live(handle)?;
        let size = self.plan.files[file].content.len();
        let base = [0, place.pointer, size][method as usize];
        let result = base as i64 + i64::from(offset);
        refuse_if(!(0..=0xFFFF_FFFF).contains(&result), 1)?;
        self.set_pointer(handle, result as usize);
        Ok(result as usize)
    }

    fn close(&mut self, handle: u32, stamp: &[u32; 6]) -> Outcome {
        let stamp = stamped(stamp)?;
        let (place, file) = self.live(handle)?;
        if place.written {
            *self.attribute(file) |= 0x20;
            self.plan.slots[place.slot][22..26].copy_from_slice(&stamp);
        }
        self.record(handle as usize).fill(0);
        Ok(0)
    }

    /// A file that is neither read-only nor open, or 5.
    fn changeable(&mut self, name: &[u8; 11]) -> Outcome {
        let file = self.find(name)?;
        let open = self.is_open(self.plan.files[file].slot);
        refuse_if(open || *self.attribute(file) & 1 == 1, 5)?;
        Ok(file)
    }

    fn delete(&mut self, name: &[u8]) -> Outcome {
        let file = self.changeable(&stored(name)?)?;
        let file = self.free(file);
        self.plan.slots[file.slot][0] = 0xE5;
        Ok(0)
    }

    fn rename(&mut self, old: &[u8], new: &[u8]) -> Outcome {
        let (old, new) = (stored(old)?, stored(new)?);
        let file = self.changeable(&old)?;
        refuse_if(self.find(&new).is_ok(), 5)?;
        let slot = self.plan.files[file].slot;
        self.plan.slots[slot][..11].copy_from_slice(&new);
        Ok(0)
    }

    fn mode(&mut self, name: &[u8], function: u32, attribute: u32) -> Outcome {
        refuse_if(function > 1, 1)?;
        let file = self.find(&stored(name)?)?;
        if function == 0 {
            return Ok(usize::from(*self.attribute(file)));
        }
        let open = self.is_open(self.plan.files[file].slot);
        refuse_if(open || bad_attribute(attribute), 5)?;
        *self.attribute(file) = attribute as u8;
        Ok(0)
    }
}
