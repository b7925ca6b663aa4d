//! The contents of all files, kept by the history of calls alone.
//!
//! It knows no clusters, only how many there are and how many a file has: a file
//! begins with the bytes it has on the first volume, or with none when it is
//! created; a write puts as many bytes as it answers at the pointer, with zeros
//! before them where that was past the size, and takes new clusters only where
//! the file has too few; delete ends the file. It follows the calls that ended
//! well, and says where an answer does not fit what went before.

use std::collections::BTreeMap;
use std::ops::RangeInclusive;

use super::search::lists;
use crate::volume::kind::Kind;
use crate::volumes::bad_or_reserved::{BAD, HIGHEST_RESERVED, LOWEST_RESERVED};
use crate::volumes::calls::Call;
use crate::volumes::plan::Plan;
use crate::volumes::texts::stored_form;
use crate::volumes::word;

pub struct File {
    pub slot: u32,
    pub attribute: u8,
    pub bytes: Vec<u8>,
    /// How many it has, with those that its bytes do not need.
    clusters: u32,
}

/// A used place of the open table.
struct Place {
    access: u8,
    written: bool,
    slot: u32,
    pointer: u32,
}

pub struct Files {
    pub kind: &'static Kind,
    /// Bad and reserved clusters. No call but format alters their numbers.
    pub bad: u32,
    pub reserved: u32,
    /// By the 11 name bytes.
    pub files: BTreeMap<[u8; 11], File>,
    /// The 16 places or fewer; `None` is not used.
    places: Vec<Option<Place>>,
}

/// What the library lent back after a call.
pub struct After<'a> {
    pub value: u32,
    pub table: &'a [u8],
    pub buffer: &'a [u8],
}

type Followed = Result<(), String>;

fn expect(what: &str, expected: u32, found: u32) -> Followed {
    match expected == found {
        true => Ok(()),
        false => Err(format!(
            "{what}: {expected} by the history, {found} answered"
        )),
    }
}

fn place_of(record: &[u8]) -> Option<Place> {
    (record[0] != 0).then(|| Place {
        access: record[1],
        written: record[2] != 0,
        slot: word(record, 4),
        pointer: word(record, 8),
    })
}

/// The 11 bytes of a name that a call took.
fn stored(name: &[u8]) -> [u8; 11] {
    stored_form(&name.to_ascii_uppercase())
}

impl Files {
    /// The files of a sound volume by its plan, and the places of the table.
    pub fn of(plan: &Plan, table: &[u8]) -> Files {
        let file = |planned: &crate::volumes::plan::File| {
            let entry = &plan.slots[planned.slot];
            let mut name = [0; 11];
            name.copy_from_slice(&entry[..11]);
            let file = File {
                slot: planned.slot as u32,
                attribute: entry[11],
                bytes: planned.content.clone(),
                clusters: planned.clusters.len() as u32,
            };
            (name, file)
        };
        let clusters = |values: RangeInclusive<u16>| {
            let wanted = plan.values.iter().filter(|&value| values.contains(value));
            wanted.count() as u32
        };
        Files {
            kind: plan.kind,
            bad: clusters(BAD..=BAD),
            reserved: clusters(LOWEST_RESERVED..=HIGHEST_RESERVED),
            files: plan.files.iter().map(file).collect(),
            places: table.chunks_exact(16).take(16).map(place_of).collect(),
        }
    }

    /// The clusters that all files have together.
    pub fn held(&self) -> u32 {
        self.files.values().map(|file| file.clusters).sum()
    }

    pub fn free(&self) -> u32 {
        self.kind.clusters() as u32 - self.held() - self.bad - self.reserved
    }

    /// Follows a call that ended well.
    pub fn follow(&mut self, call: &Call, after: After) -> Followed {
        match call {
            Call::Format { .. } => self.format(),
            Call::FreeSpace => expect("free clusters", self.free(), after.value),
            Call::Find {
                pattern,
                slot,
                mask,
            } => self.find(pattern, *slot, *mask, after.value),
            Call::Open { name, access } => self.open(&stored(name), *access, after.value),
            Call::Create {
                name, attribute, ..
            } => self.create(stored(name), *attribute as u8, after),
            Call::Read { handle } => self.read(*handle, after),
            Call::Write { handle, data } => self.write(*handle, data, after.value),
            Call::Seek {
                handle,
                method,
                offset,
            } => self.seek(*handle, *method, *offset, after.value),
            Call::Close { handle, .. } => self.close(*handle),
            Call::Delete { name } => self.take(&stored(name)).map(|_| ()),
            Call::Rename { old, new } => self.rename(&stored(old), stored(new)),
            Call::Mode {
                name,
                function,
                attribute,
            } => self.mode(&stored(name), *function, *attribute, after.value),
            Call::ViewNumber { name, .. } => self.file(&stored(name)).map(|_| ()),
            Call::Rescue { name } => self.rescue(&stored(name), after),
            Call::Check | Call::CheckSystem | Call::Entry { .. } => Ok(()),
        }
    }

    /// The slots that a search must list, in their order.
    pub fn listed(&self, pattern: &[u8], mask: u32) -> Vec<u32> {
        let files = self.files.iter();
        let files = files.filter(|(name, file)| lists(pattern, mask, *name, file.attribute));
        let mut slots: Vec<u32> = files.map(|(_, file)| file.slot).collect();
        slots.sort_unstable();
        slots
    }

    fn find(&self, pattern: &[u8], from: u32, mask: u32, answered: u32) -> Followed {
        let mut slots = self.listed(pattern, mask).into_iter();
        let slot = slots.find(|&slot| slot >= from);
        let slot = slot.ok_or("the history has no file that matches")?;
        expect("slot", slot, answered)
    }

    fn file(&mut self, name: &[u8; 11]) -> Result<&mut File, String> {
        let file = self.files.get_mut(name);
        file.ok_or_else(|| "the history has no file of this name".to_string())
    }

    fn take(&mut self, name: &[u8; 11]) -> Result<File, String> {
        let file = self.files.remove(name);
        file.ok_or_else(|| "the history has no file of this name".to_string())
    }

    /// A used place, and the file in its slot.
    fn live(&mut self, handle: u32) -> Result<(&mut Place, &mut File), String> {
        let place = self
            .places
            .get_mut(handle as usize)
            .and_then(Option::as_mut);
        let place = place.ok_or("the history has no such open place")?;
        let file = self.files.values_mut().find(|file| file.slot == place.slot);
        Ok((place, file.ok_or("the history has no file at this place")?))
    }

    /// The same, opened with another access than this.
    fn live_but_for(&mut self, access: u8, handle: u32) -> Result<(&mut Place, &mut File), String> {
        let (place, file) = self.live(handle)?;
        match place.access == access {
            true => Err(format!("the history has access {access} at this place")),
            false => Ok((place, file)),
        }
    }

    fn occupy(&mut self, access: u8, slot: u32, handle: u32) -> Followed {
        let lowest = self.places.iter().position(Option::is_none);
        let lowest = lowest.ok_or("the history has no unused place")?;
        expect("handle", lowest as u32, handle)?;
        self.places[lowest] = Some(Place {
            access,
            written: false,
            slot,
            pointer: 0,
        });
        Ok(())
    }

    fn format(&mut self) -> Followed {
        self.files.clear();
        (self.bad, self.reserved) = (0, 0);
        Ok(())
    }

    fn open(&mut self, name: &[u8; 11], access: u32, handle: u32) -> Followed {
        let slot = self.file(name)?.slot;
        self.occupy(access as u8, slot, handle)
    }

    /// The slot of a new file is the library's choice.
    fn create(&mut self, name: [u8; 11], attribute: u8, after: After) -> Followed {
        let mut records = after.table.chunks_exact(16);
        let record = records.nth(after.value as usize);
        let slot = word(record.ok_or("no such handle")?, 4);
        self.occupy(2, slot, after.value)?;
        if let Some(old) = self.files.remove(&name) {
            expect("slot of the emptied file", old.slot, slot)?;
        }
        if self.files.values().any(|file| file.slot == slot) {
            return Err("the history has a file in the new file's slot".to_string());
        }
        let file = File {
            slot,
            attribute,
            bytes: Vec::new(),
            clusters: 0,
        };
        self.files.insert(name, file);
        Ok(())
    }

    fn read(&mut self, handle: u32, after: After) -> Followed {
        let (place, file) = self.live_but_for(1, handle)?;
        let rest = file.bytes.get(place.pointer as usize..).unwrap_or(&[]);
        let count = rest.len().min(after.buffer.len());
        expect("bytes read", count as u32, after.value)?;
        place.pointer += count as u32;
        match rest[..count] == after.buffer[..count] {
            true => Ok(()),
            false => Err("other bytes were read than the history wrote".to_string()),
        }
    }

    fn rescue(&mut self, name: &[u8; 11], after: After) -> Followed {
        let bytes = &self.file(name)?.bytes;
        let count = bytes.len().min(after.buffer.len());
        expect("bytes rescued", count as u32, after.value)?;
        match bytes[..count] == after.buffer[..count] {
            true => Ok(()),
            false => Err("other bytes were rescued than the history wrote".to_string()),
        }
    }

    fn write(&mut self, handle: u32, data: &[u8], count: u32) -> Followed {
        let (kind, free) = (self.kind, self.free());
        let (place, file) = self.live_but_for(0, handle)?;
        let room = (file.clusters + free) as usize * kind.cluster_bytes();
        let from = place.pointer as usize;
        let expected = data.len().min(room.saturating_sub(from));
        expect("bytes written", expected as u32, count)?;
        if expected > 0 {
            let end = from + expected;
            file.bytes.resize(end.max(file.bytes.len()), 0);
            file.bytes[from..end].copy_from_slice(&data[..expected]);
            let needed = kind.clusters_for(file.bytes.len() as u32);
            file.clusters = file.clusters.max(needed);
            place.pointer = end as u32;
            place.written = true;
        }
        Ok(())
    }

    fn seek(&mut self, handle: u32, method: u32, offset: i32, answered: u32) -> Followed {
        let (place, file) = self.live(handle)?;
        let base = match method {
            0 => 0,
            1 => i64::from(place.pointer),
            _ => file.bytes.len() as i64,
        };
        place.pointer = (base + i64::from(offset)) as u32;
        expect("pointer", place.pointer, answered)
    }

    fn close(&mut self, handle: u32) -> Followed {
        let (place, file) = self.live(handle)?;
        if place.written {
            file.attribute |= 0x20;
        }
        self.places[handle as usize] = None;
        Ok(())
    }

    fn rename(&mut self, old: &[u8; 11], new: [u8; 11]) -> Followed {
        let file = self.take(old)?;
        match self.files.insert(new, file) {
            None => Ok(()),
            Some(_) => Err("the history has a file of the new name".to_string()),
        }
    }

    fn mode(&mut self, name: &[u8; 11], function: u32, attribute: u32, value: u32) -> Followed {
        let file = self.file(name)?;
        if function == 0 {
            return expect("attribute", u32::from(file.attribute), value);
        }
        file.attribute = attribute as u8;
        Ok(())
    }
}
