//! The open table: records of 16 bytes that the caller lends.

use super::answer::Refusal;
use super::directory::{is_plain_file, Entry};

pub const RECORD: usize = 16;

/// Only so many records count.
pub const PLACES: usize = 16;

pub const READ: u8 = 0;
pub const WRITE: u8 = 1;
pub const BOTH: u8 = 2;

/// A record's bytes: used 0, access 1, written 2, slot 4, pointer 8.
pub type Record = [u8; RECORD];

/// A place that is live, with what its record holds.
#[derive(Clone, Copy, Debug, PartialEq, Eq)]
pub struct Live {
    pub place: usize,
    pub access: u8,
    pub written: bool,
    pub slot: usize,
    pub pointer: u32,
}

fn records(table: &[u8]) -> &[Record] {
    let all = table.as_chunks().0;
    &all[..all.len().min(PLACES)]
}

fn record_mut(table: &mut [u8], place: usize) -> &mut Record {
    &mut table.as_chunks_mut().0[place]
}

fn is_used(record: &Record) -> bool {
    record[0] != 0
}

fn word(record: &Record, at: usize) -> u32 {
    u32::from_le_bytes([record[at], record[at + 1], record[at + 2], record[at + 3]])
}

fn slot(record: &Record) -> u32 {
    word(record, 4)
}

/// The lowest place that is not used, or 4.
pub fn lowest_unused(table: &[u8]) -> Result<usize, Refusal> {
    let place = records(table).iter().position(|record| !is_used(record));
    place.ok_or(Refusal::NoPlace)
}

/// Whether a used place, whatever its access, names the slot.
pub fn is_open(table: &[u8], wanted: usize) -> bool {
    let names = |record: &Record| is_used(record) && slot(record) as usize == wanted;
    records(table).iter().any(names)
}

/// The live place of a handle, or 6.
pub fn live(entries: &[Entry], table: &[u8], handle: u32) -> Result<Live, Refusal> {
    let place = handle as usize;
    let record = records(table).get(place).ok_or(Refusal::NotLive)?;
    let entry = entries.get(slot(record) as usize).ok_or(Refusal::NotLive)?;
    if !is_used(record) || record[1] > BOTH || !is_plain_file(entry) {
        return Err(Refusal::NotLive);
    }
    Ok(Live {
        place,
        access: record[1],
        written: record[2] != 0,
        slot: slot(record) as usize,
        pointer: word(record, 8),
    })
}

/// Opens a file at a place: pointer 0, not written, the rest 0.
pub fn store_open(table: &mut [u8], place: usize, slot: usize, access: u8) {
    let mut record = [0; RECORD];
    record[0] = 1;
    record[1] = access;
    record[4..8].copy_from_slice(&(slot as u32).to_le_bytes());
    *record_mut(table, place) = record;
}

pub fn store_pointer(table: &mut [u8], place: usize, pointer: u32) {
    record_mut(table, place)[8..12].copy_from_slice(&pointer.to_le_bytes());
}

pub fn store_written(table: &mut [u8], place: usize) {
    record_mut(table, place)[2] = 1;
}

/// Frees a place: all its bytes zero.
pub fn store_closed(table: &mut [u8], place: usize) {
    *record_mut(table, place) = [0; RECORD];
}
