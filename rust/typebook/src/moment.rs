//! Dates and times of day: a count of a type such as DT or TOD as year to nanosecond, and back.

use crate::Refusal;
use crate::book::told;
use crate::ffi::total;
use std::fmt;

/// A moment by the Gregorian calendar, or a time of day, which has 0 for year, month and day.
///
/// ```
/// use typebook::{Moment, Refusal};
///
/// let shift = Moment::of("DT", 4_294_967_295)?;
/// assert_eq!(shift.to_string(), "2106-02-07T06:28:15");
/// assert_eq!(shift.count("DATE"), Ok(4_294_967_295));
/// assert_eq!(Moment::of("TOD", 21_600_250)?.to_string(), "06:00:00.250");
///
/// let leap = Moment { year: 2100, month: 2, day: 29, ..Moment::default() };
/// assert_eq!(leap.count("LDT"), Err(Refusal::NoMoment));
/// # Ok::<(), Refusal>(())
/// ```
#[derive(Debug, Clone, Copy, Default, PartialEq, Eq, Hash, PartialOrd, Ord)]
pub struct Moment {
    /// From 1970 on.
    pub year: u32,
    /// 1 to 12.
    pub month: u32,
    /// 1 to 31.
    pub day: u32,
    /// 0 to 23.
    pub hour: u32,
    /// 0 to 59.
    pub minute: u32,
    /// 0 to 59.
    pub second: u32,
    /// 0 to 999,999,999.
    pub nanosecond: u32,
}

impl Moment {
    /// What a count of the type of that name stands for; 24 for another type, and for a count that the type doesn't have.
    pub fn of(type_name: &str, count: u64) -> Result<Self, Refusal> {
        let mut values = [0; 7];
        match total::time_parts(type_name.as_bytes(), count, &mut values) {
            0 => {
                let [year, month, day, hour, minute, second, nanosecond] = values.map(|v| v as u32);
                Ok(Self {
                    year,
                    month,
                    day,
                    hour,
                    minute,
                    second,
                    nanosecond,
                })
            }
            number => Err(told(number, 0)),
        }
    }

    /// The count of the type of that name; 24 for another type, and where this is no moment that the type can hold.
    pub fn count(&self, type_name: &str) -> Result<u64, Refusal> {
        let parts = [
            self.year,
            self.month,
            self.day,
            self.hour,
            self.minute,
            self.second,
            self.nanosecond,
        ];
        let mut values = [0; 1];
        match total::time_count(type_name.as_bytes(), &parts, &mut values) {
            0 => Ok(values[0]),
            number => Err(told(number, 0)),
        }
    }

    fn has_date(&self) -> bool {
        (self.year, self.month, self.day) != (0, 0, 0)
    }
}

/// As ISO 8601 has it: `2106-02-07T06:28:15`, a time of day without date and T, a fraction of a second by 3, 6 or 9 figures.
impl fmt::Display for Moment {
    fn fmt(&self, f: &mut fmt::Formatter<'_>) -> fmt::Result {
        if self.has_date() {
            write!(f, "{:04}-{:02}-{:02}T", self.year, self.month, self.day)?;
        }
        write!(f, "{:02}:{:02}:{:02}", self.hour, self.minute, self.second)?;
        match self.nanosecond {
            0 => Ok(()),
            n if n.is_multiple_of(1_000_000) => write!(f, ".{:03}", n / 1_000_000),
            n if n.is_multiple_of(1_000) => write!(f, ".{:06}", n / 1_000),
            n => write!(f, ".{n:09}"),
        }
    }
}
