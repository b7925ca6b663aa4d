//! Reads all files back through the library, on copies, and compares them with
//! the history.

use super::both::{halves, Both};
use super::files::{File, Files};
use super::guarded::Guarded;
use crate::volume::kind::Kind;
use crate::volume::names::is_name_byte;
use crate::volume::table::{is_bad, is_reserved, values};
use crate::volumes::calls::{Call, Scene};
use crate::volumes::texts::{callers_form, without_padding};

/// Each file's entry and bytes, and how many clusters are free, held, bad and
/// reserved.
pub fn compare_by_reading(files: &Files, both: &Both) -> Result<(), String> {
    let mut copy = Copy {
        both,
        scene: both.other.clone(),
    };
    for (name, file) in &files.files {
        copy.compare_file(name, file)
            .map_err(|what| format!("file {:?}, {what}", String::from_utf8_lossy(name)))?;
    }
    copy.compare_totals(files)?;
    let image = &copy.scene.image;
    image.compare("image that was only read", &both.plain.image)
}

/// A copy of the scene that nothing else depends on.
struct Copy<'a> {
    both: &'a Both,
    scene: Scene<Guarded>,
}

fn is_in_reach(name: &[u8; 11]) -> bool {
    let (base, extension) = (without_padding(&name[..8]), without_padding(&name[8..]));
    let good = |part: &[u8]| part.iter().all(|&byte| is_name_byte(byte));
    !base.is_empty() && good(base) && good(extension)
}

impl Copy<'_> {
    fn call(&mut self, call: Call, buffer: &[u8]) -> u64 {
        self.scene.buffer = Guarded::new(buffer, self.both.guard);
        (self.both.library)(&call, &mut self.scene)
    }

    fn compare_file(&mut self, name: &[u8; 11], file: &File) -> Result<(), String> {
        self.compare_entry(name, file)?;
        self.open(name, file)?;
        self.compare_content(file)
    }

    /// The entry has the name, the attribute and the size.
    fn compare_entry(&mut self, name: &[u8; 11], file: &File) -> Result<(), String> {
        let answer = self.call(Call::Entry { slot: file.slot }, &[0; 22]);
        let entry = &self.scene.buffer;
        let size = (file.bytes.len() as u32).to_le_bytes();
        let same = entry[..11] == *name && entry[11] == file.attribute && entry[18..] == size;
        match answer == 1 && same {
            true => Ok(()),
            false => Err(format!(
                "its entry is not as the history has it: {entry:02X?}"
            )),
        }
    }

    /// Opens it at place 0; where its name is out of a caller's reach, the
    /// record is made by hand.
    fn open(&mut self, name: &[u8; 11], file: &File) -> Result<(), String> {
        let mut table = [0; 16];
        if !is_in_reach(name) {
            table[0] = 1;
            table[4..8].copy_from_slice(&file.slot.to_le_bytes());
            self.scene.table = Guarded::new(&table, self.both.guard);
            return Ok(());
        }
        self.scene.table = Guarded::new(&table, self.both.guard);
        let name = callers_form(name);
        match self.call(Call::Open { name, access: 0 }, &[]) {
            0 => Ok(()),
            answer => Err(format!("open answers {}", halves(answer))),
        }
    }

    /// A buffer of one byte more holds the content, and then its own byte.
    fn compare_content(&mut self, file: &File) -> Result<(), String> {
        let mut expected = file.bytes.clone();
        expected.push(0xA7);
        let answer = self.call(Call::Read { handle: 0 }, &vec![0xA7; expected.len()]);
        if answer != file.bytes.len() as u64 {
            return Err(format!(
                "{} bytes, read answers {}",
                file.bytes.len(),
                halves(answer)
            ));
        }
        self.scene
            .buffer
            .compare("content by the history", &expected)
    }

    /// Check's counts, those by the history and those of the table agree, and
    /// all clusters are free, held, bad or reserved.
    fn compare_totals(&mut self, files: &Files) -> Result<(), String> {
        let answer = self.call(Call::Check, &[0; 20]);
        let words = self.scene.buffer.as_chunks().0;
        let counts: Vec<u32> = words.iter().map(|word| u32::from_le_bytes(*word)).collect();
        let (free, bad, reserved) = (files.free(), files.bad, files.reserved);
        let by_history = [files.files.len() as u32, free, files.held(), bad, reserved];
        if answer != 0 || counts != by_history {
            return Err(format!(
                "check answers {} and counts {counts:?}, the history {by_history:?}",
                halves(answer)
            ));
        }
        let by_table = table_counts(files.kind, &self.both.plain.image);
        let total: u32 = counts[1..].iter().sum();
        match by_table == [free, bad, reserved] && total == files.kind.clusters() as u32 {
            true => Ok(()),
            false => Err(format!("check counts {counts:?}, the table {by_table:?}")),
        }
    }
}

/// How many clusters are free, bad and reserved by the table's values.
fn table_counts(kind: &Kind, image: &[u8]) -> [u32; 3] {
    let values = values(kind, &image[kind.copy_at(0)..][..kind.fat_bytes()]);
    let values = &values[2..=kind.last_cluster()];
    let count = |wanted: fn(u16) -> bool| {
        let wanted = values.iter().filter(|&&value| wanted(value));
        wanted.count() as u32
    };
    [count(|value| value == 0), count(is_bad), count(is_reserved)]
}
