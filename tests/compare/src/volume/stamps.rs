//! Stamps: six numbers, or two words of 16 bits.

use super::answer::Refusal;

/// A caller's stamp. The year counts from 1980, a step is two seconds.
#[derive(Clone, Copy, Debug, PartialEq, Eq)]
pub struct Stamp {
    pub hour: u32,
    pub minute: u32,
    pub step: u32,
    pub year: u32,
    pub month: u32,
    pub day: u32,
}

impl From<[u32; 6]> for Stamp {
    fn from([hour, minute, step, year, month, day]: [u32; 6]) -> Stamp {
        Stamp {
            hour,
            minute,
            step,
            year,
            month,
            day,
        }
    }
}

const fn time_in_range(hour: u32, minute: u32, step: u32) -> bool {
    hour <= 23 && minute <= 59 && step <= 29
}

const fn date_in_range(year: u32, month: u32, day: u32) -> bool {
    year <= 119 && 1 <= month && month <= 12 && 1 <= day && day <= 31
}

impl Stamp {
    /// The words for time and date, or 43.
    pub fn words(&self) -> Result<(u16, u16), Refusal> {
        let time = time_in_range(self.hour, self.minute, self.step);
        let date = date_in_range(self.year, self.month, self.day);
        if !(time && date) {
            return Err(Refusal::BadStamp);
        }
        let time = self.hour << 11 | self.minute << 5 | self.step;
        let date = self.year << 9 | self.month << 5 | self.day;
        Ok((time as u16, date as u16))
    }
}

/// Hour, minute and step of a time word that is in range.
pub fn time_parts(word: u16) -> Option<(u32, u32, u32)> {
    let word = u32::from(word);
    let (hour, minute, step) = (word >> 11, word >> 5 & 0x3F, word & 0x1F);
    time_in_range(hour, minute, step).then_some((hour, minute, step))
}

/// Year from 1980, month and day of a date word that is in range.
pub fn date_parts(word: u16) -> Option<(u32, u32, u32)> {
    let word = u32::from(word);
    let (year, month, day) = (word >> 9, word >> 5 & 0x0F, word & 0x1F);
    date_in_range(year, month, day).then_some((year, month, day))
}
