//! Short forms of the calls for the tests.
#![allow(dead_code)]

pub mod letter;
pub mod model;

use compare::volume::answer::{number, value};
use compare::volume::kind::Kind;
use compare::volume::*;

pub const MORNING: [u32; 6] = [6, 40, 0, 3, 9, 1];
pub const EVENING: [u32; 6] = [18, 5, 29, 3, 9, 1];

/// An answer's two halves: refusal number (or finding) and value (or place).
pub fn halves(answer: u64) -> (u32, u32) {
    (number(answer), value(answer))
}

/// What a refusal answers.
pub fn refused(number: u32) -> (u32, u32) {
    (number, 0)
}

/// A call puts these words into an `out` that has room for them, and keeps all
/// other bytes; a shorter one it leaves as it came. The answer is the same.
pub fn expect_words(words: &[u32], answer: u64, call: impl Fn(&mut [u8]) -> u64) {
    let words: Vec<u8> = words.iter().flat_map(|word| word.to_le_bytes()).collect();
    for length in 0..=24 {
        let mut out = [7; 24];
        assert_eq!(call(&mut out[..length]), answer);
        let put = if length < words.len() {
            &[]
        } else {
            &words[..]
        };
        let (front, rest) = out.split_at(put.len());
        assert_eq!(front, put, "out of {length} bytes");
        assert!(rest.iter().all(|&byte| byte == 7), "out of {length} bytes");
    }
}

/// A volume with its open table.
#[derive(Clone, Debug, PartialEq, Eq)]
pub struct Desk {
    pub image: Vec<u8>,
    pub table: Vec<u8>,
}

impl Desk {
    /// A blank volume and a table of 16 places.
    pub fn new(kind: u32) -> Desk {
        let sectors = Kind::of_number(kind).map_or(0, |kind| kind.sectors);
        let mut image = vec![0x5A; 512 * sectors];
        assert_eq!(format(&mut image, kind), 0);
        Desk {
            image,
            table: vec![0; 256],
        }
    }

    pub fn kind(&self) -> &'static Kind {
        Kind::of_image(&self.image).expect("an image of a kind")
    }

    pub fn find(&self, pattern: &[u8], slot: u32, mask: u32) -> (u32, u32) {
        halves(find(&self.image, pattern, slot, mask))
    }

    pub fn open(&mut self, name: &str, access: u32) -> (u32, u32) {
        halves(open(&self.image, &mut self.table, name.as_bytes(), access))
    }

    pub fn create_at(&mut self, name: &[u8], attribute: u32, stamp: [u32; 6]) -> (u32, u32) {
        let [a, b, c, d, e, f] = stamp;
        halves(create(
            &mut self.image,
            &mut self.table,
            name,
            attribute,
            a,
            b,
            c,
            d,
            e,
            f,
        ))
    }

    pub fn create(&mut self, name: &str, attribute: u32) -> (u32, u32) {
        self.create_at(name.as_bytes(), attribute, MORNING)
    }

    pub fn read(&mut self, handle: u32, buffer: &mut [u8]) -> (u32, u32) {
        halves(read(&self.image, &mut self.table, handle, buffer))
    }

    pub fn write(&mut self, handle: u32, data: &[u8]) -> (u32, u32) {
        halves(write(&mut self.image, &mut self.table, handle, data))
    }

    pub fn seek(&mut self, handle: u32, method: u32, offset: i32) -> (u32, u32) {
        halves(seek(&self.image, &mut self.table, handle, method, offset))
    }

    pub fn close_at(&mut self, handle: u32, stamp: [u32; 6]) -> (u32, u32) {
        let [a, b, c, d, e, f] = stamp;
        halves(close(
            &mut self.image,
            &mut self.table,
            handle,
            a,
            b,
            c,
            d,
            e,
            f,
        ))
    }

    pub fn close(&mut self, handle: u32) -> (u32, u32) {
        self.close_at(handle, MORNING)
    }

    pub fn delete(&mut self, name: &str) -> (u32, u32) {
        halves(delete(&mut self.image, &self.table, name.as_bytes()))
    }

    pub fn rename(&mut self, old: &str, new: &str) -> (u32, u32) {
        halves(rename(
            &mut self.image,
            &self.table,
            old.as_bytes(),
            new.as_bytes(),
        ))
    }

    pub fn mode(&mut self, name: &str, function: u32, attribute: u32) -> (u32, u32) {
        halves(mode(
            &mut self.image,
            &self.table,
            name.as_bytes(),
            function,
            attribute,
        ))
    }

    pub fn check(&self) -> (u32, u32) {
        halves(check(&self.image, &mut []))
    }

    /// Files, free, held, bad and reserved of a sound volume.
    pub fn counts(&self) -> [u32; 5] {
        let mut out = [0; 20];
        assert_eq!(check(&self.image, &mut out), 0);
        words(&out)
    }

    /// Makes a file of this content and closes it.
    pub fn put(&mut self, name: &str, content: &[u8]) {
        let (refusal, handle) = self.create(name, 0);
        assert_eq!(refusal, 0);
        assert_eq!(self.write(handle, content), (0, content.len() as u32));
        assert_eq!(self.close(handle), (0, 0));
    }

    /// The bytes of a root entry.
    pub fn slot(&mut self, slot: usize) -> &mut [u8] {
        let at = self.kind().root_at() + 32 * slot;
        &mut self.image[at..at + 32]
    }

    /// A record of the open table.
    pub fn record(&mut self, place: usize) -> &mut [u8] {
        &mut self.table[16 * place..16 * place + 16]
    }

    /// Stores a table entry in both copies.
    pub fn set_value(&mut self, cluster: u16, value: u16) {
        let kind = self.kind();
        table::set_in_both(kind, &mut self.image, cluster, value);
    }

    pub fn value(&self, cluster: usize) -> u16 {
        table::value(&self.image[512..], cluster)
    }

    /// Runs a call that must refuse by `number` and alter nothing.
    pub fn refuses(&mut self, number: u32, call: impl FnOnce(&mut Desk) -> (u32, u32)) {
        let before = self.clone();
        assert_eq!(call(self), refused(number));
        assert!(*self == before, "a refusal altered something");
    }
}

/// A record with these fields; bytes 3 and 12 to 15 hold junk.
pub fn record(used: u8, access: u8, written: u8, slot: u32, pointer: u32) -> Vec<u8> {
    let mut bytes = vec![used, access, written, 0x77];
    bytes.extend(slot.to_le_bytes());
    bytes.extend(pointer.to_le_bytes());
    bytes.extend([0x77; 4]);
    bytes
}

/// The first words of `out`.
pub fn words<const COUNT: usize>(bytes: &[u8]) -> [u32; COUNT] {
    let word = |at: usize| u32::from_le_bytes([0, 1, 2, 3].map(|n| bytes[4 * at + n]));
    std::array::from_fn(word)
}
