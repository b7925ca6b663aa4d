//! Clusters that are bad or reserved, which no file takes.

use super::random::Random;

/// The value of a bad cluster.
pub const BAD: u16 = 0xFF7;

/// The lowest and the highest value of a reserved cluster.
pub const LOWEST_RESERVED: u16 = 0xFF0;
pub const HIGHEST_RESERVED: u16 = 0xFF6;

/// The value of a reserved cluster. A test that goes wrong does so at an end of
/// the range most likely, so the ends come more often.
pub fn reserved_value(random: &mut Random) -> u16 {
    let any = LOWEST_RESERVED + random.below(7) as u16;
    *random.pick(&[LOWEST_RESERVED, HIGHEST_RESERVED, any])
}

/// Bad as often as reserved.
pub fn bad_or_reserved_value(random: &mut Random) -> u16 {
    match random.one_in(2) {
        true => BAD,
        false => reserved_value(random),
    }
}

/// Sorts of volumes that the comparison must meet, each named by what stands in
/// the table.
pub const SORTS: [&str; 6] = ["bad only", "reserved only", "both", "FF0", "FF6", "FF7"];

/// Which of the sorts a volume is whose clusters have these values.
pub fn sorts(values: &[u16]) -> [bool; 6] {
    let is_reserved = |value: &u16| (LOWEST_RESERVED..=HIGHEST_RESERVED).contains(value);
    let bad = values.contains(&BAD);
    let reserved = values.iter().any(is_reserved);
    [
        bad && !reserved,
        reserved && !bad,
        bad && reserved,
        values.contains(&LOWEST_RESERVED),
        values.contains(&HIGHEST_RESERVED),
        bad,
    ]
}
