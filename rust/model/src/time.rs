//! Counts of time: which types are such counts, and the calendar, counted year by year and month by month.

use crate::category::Category;

/// What a type of that name counts: nanoseconds in one count, bytes, and from when.
#[derive(Clone, Copy, PartialEq)]
enum Since {
    Nothing,
    Midnight,
    Epoch,
}

fn listed(name: &[u8]) -> Option<(u64, u8, Since)> {
    Some(match name {
        b"TIME" => (1_000_000, 4, Since::Nothing),
        b"LTIME" => (1, 8, Since::Nothing),
        b"TOD" | b"TIME_OF_DAY" => (1_000_000, 4, Since::Midnight),
        b"DATE" | b"DT" | b"DATE_AND_TIME" => (1_000_000_000, 4, Since::Epoch),
        b"LDATE" | b"LDT" => (1, 8, Since::Epoch),
        b"LTOD" => (1, 8, Since::Midnight),
        _ => return None,
    })
}

/// The bytes of the count of time that a resolved type of this name and category is.
pub fn count_width(name: &[u8], category: Category) -> Option<u8> {
    let counts = !matches!(
        category,
        Category::Pointer
            | Category::Reference
            | Category::Array
            | Category::Enum
            | Category::SubRange
            | Category::Alias
            | Category::Struct
            | Category::Union
            | Category::FunctionBlock
    );
    listed(name).filter(|_| counts).map(|(_, width, _)| width)
}

/// Year, month, day, hour, minute, second, nanosecond.
pub type Parts = [u32; 7];

const SECOND: u64 = 1_000_000_000;
const DAY: u64 = 86_400 * SECOND;

fn leap(year: u32) -> bool {
    (year.is_multiple_of(4) && !year.is_multiple_of(100)) || year.is_multiple_of(400)
}

fn month_days(year: u32, month: u32) -> u32 {
    match month {
        4 | 6 | 9 | 11 => 30,
        2 if leap(year) => 29,
        2 => 28,
        _ => 31,
    }
}

/// The parts of a count; none is refusal 24.
pub fn parts(name: &[u8], count: u64) -> Option<Parts> {
    let (unit, width, since) = listed(name)?;
    if since == Since::Nothing || (width == 4 && count > u64::from(u32::MAX)) {
        return None;
    }
    let nanoseconds = count.checked_mul(unit)?;
    let (mut day, clock) = (nanoseconds / DAY, nanoseconds % DAY);
    let (mut year, mut month) = (1970, 1);
    let date = match since {
        Since::Midnight if day > 0 => return None,
        Since::Midnight => [0, 0, 0],
        _ => {
            while day >= if leap(year) { 366 } else { 365 } {
                day -= if leap(year) { 366 } else { 365 };
                year += 1;
            }
            while day >= u64::from(month_days(year, month)) {
                day -= u64::from(month_days(year, month));
                month += 1;
            }
            [year, month, day as u32 + 1]
        }
    };
    let seconds = (clock / SECOND) as u32;
    Some([
        date[0],
        date[1],
        date[2],
        seconds / 3600,
        seconds / 60 % 60,
        seconds % 60,
        (clock % SECOND) as u32,
    ])
}

/// The count that has these parts; none is refusal 24.
pub fn count(name: &[u8], parts: Parts) -> Option<u64> {
    let (unit, width, since) = listed(name)?;
    let [year, month, day, hour, minute, second, nanosecond] = parts;
    if hour > 23 || minute > 59 || second > 59 || nanosecond > 999_999_999 {
        return None;
    }
    let clock = u128::from(hour * 3600 + minute * 60 + second) * u128::from(SECOND) + u128::from(nanosecond);
    let days = match since {
        Since::Nothing => return None,
        Since::Midnight if [year, month, day] != [0, 0, 0] => return None,
        Since::Midnight => 0,
        Since::Epoch if !(1970..3000).contains(&year) || !(1..=12).contains(&month) => return None,
        Since::Epoch if day == 0 || day > month_days(year, month) => return None,
        Since::Epoch => {
            let years: u32 = (1970..year).map(|y| if leap(y) { 366 } else { 365 }).sum();
            let months: u32 = (1..month).map(|m| month_days(year, m)).sum();
            years + months + day - 1
        }
    };
    let nanoseconds = u128::from(days) * u128::from(DAY) + clock;
    let most = if width == 4 {
        u128::from(u32::MAX)
    } else {
        u128::from(u64::MAX)
    };
    let whole = nanoseconds.is_multiple_of(u128::from(unit));
    (whole && nanoseconds / u128::from(unit) <= most).then(|| (nanoseconds / u128::from(unit)) as u64)
}
