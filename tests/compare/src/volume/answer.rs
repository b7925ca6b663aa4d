//! Answers: the refusal number above, the value below.

/// The reasons to refuse: the lines of the specification's table, in its order.
#[derive(Clone, Copy, Debug, PartialEq, Eq, PartialOrd, Ord)]
pub enum Refusal {
    NotOfAKind,
    NotSound,
    /// Seek method above 2, file mode function above 1.
    BadFunction,
    BadAccess,
    /// A name or a pattern.
    BadName,
    BadStamp,
    NotLive,
    /// A seek's result outside 32 bits.
    OutOfRange,
    NoSuchFile,
    /// Find: nothing matches from the slot on.
    NoMoreFiles,
    BadAttribute,
    FileOpen,
    ReadOnly,
    NameTaken,
    NoSlot,
    /// Read on access 1, write on access 0.
    WrongAccess,
    /// Rescue of a file whose chain is not as finding 5 asks.
    BadChain,
    NoPlace,
}

impl Refusal {
    pub const fn number(self) -> u32 {
        match self {
            Refusal::NotOfAKind => 40,
            Refusal::NotSound => 41,
            Refusal::BadFunction | Refusal::OutOfRange => 1,
            Refusal::BadAccess => 12,
            Refusal::BadName => 42,
            Refusal::BadStamp => 43,
            Refusal::NotLive => 6,
            Refusal::NoSuchFile => 2,
            Refusal::NoMoreFiles => 18,
            Refusal::BadAttribute
            | Refusal::FileOpen
            | Refusal::ReadOnly
            | Refusal::NameTaken
            | Refusal::NoSlot
            | Refusal::WrongAccess
            | Refusal::BadChain => 5,
            Refusal::NoPlace => 4,
        }
    }
}

/// Packs a number and a value.
pub const fn packed(number: u32, value: u32) -> u64 {
    (number as u64) << 32 | value as u64
}

/// The upper half: refusal number or finding.
pub const fn number(answer: u64) -> u32 {
    (answer >> 32) as u32
}

/// The lower half: value or place.
pub const fn value(answer: u64) -> u32 {
    answer as u32
}

/// A call's answer. A refusal's value is 0.
pub fn answer(outcome: Result<u32, Refusal>) -> u64 {
    match outcome {
        Ok(value) => packed(0, value),
        Err(refusal) => packed(refusal.number(), 0),
    }
}

/// Refuses unless `allowed`.
pub fn unless(allowed: bool, refusal: Refusal) -> Result<(), Refusal> {
    if allowed {
        Ok(())
    } else {
        Err(refusal)
    }
}

/// Puts `bytes` at the front of `out`, or nothing where they don't fit.
pub fn put(out: &mut [u8], bytes: &[u8]) {
    if let Some(front) = out.get_mut(..bytes.len()) {
        front.copy_from_slice(bytes);
    }
}

/// Puts 32-bit words, low byte first.
pub fn put_words<const COUNT: usize>(out: &mut [u8], words: [u32; COUNT]) {
    put(out, words.map(u32::to_le_bytes).as_flattened());
}
