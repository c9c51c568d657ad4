//! Dates and times of day over the boundary, against the calendar of python's datetime (months.txt, made by tools/record_times.py).

use model::make::{Type, book};
use typebook::{Moment, Refusal, Tape, TapeBuilder, TypeBook, Value};

const DAY: u64 = 86_400;
const NANO: u64 = 1_000_000_000;
/// Seconds since 1970 that each type holds.
const TYPES: [(&str, u64); 5] = [
    ("DATE", 0xFFFF_FFFF),
    ("DT", 0xFFFF_FFFF),
    ("DATE_AND_TIME", 0xFFFF_FFFF),
    ("LDATE", u64::MAX / NANO),
    ("LDT", u64::MAX / NANO),
];

fn moment(year: u32, month: u32, day: u32, hour: u32, minute: u32, second: u32, nanosecond: u32) -> Moment {
    Moment {
        year,
        month,
        day,
        hour,
        minute,
        second,
        nanosecond,
    }
}

/// Year, month, and the number of its first day; the last month ends nowhere.
fn months() -> Vec<(u32, u32, u64)> {
    let lines = include_str!("months.txt").lines();
    let months: Vec<_> = lines
        .flat_map(|line| {
            let numbers: Vec<u64> = line.split(' ').map(|n| n.parse().expect("a number")).collect();
            let of = move |i: usize| (numbers[0] as u32, i as u32, numbers[i]);
            (1..=12).map(of).collect::<Vec<_>>()
        })
        .collect();
    assert_eq!(months.len(), 585 * 12);
    months
}

/// A count and its parts, there and back.
fn both_ways(name: &str, count: u64, parts: Moment) {
    assert_eq!(Moment::of(name, count), Ok(parts), "{name} {count}");
    assert_eq!(parts.count(name), Ok(count), "{name} {parts}");
}

/// A second since 1970 in each type; 24 in those that don't hold it.
fn second(seconds: u64, parts: Moment) {
    for (name, most) in TYPES {
        let count = if name.starts_with('L') {
            seconds.wrapping_mul(NANO)
        } else {
            seconds
        };
        if seconds <= most {
            both_ways(name, count, parts);
        } else {
            assert_eq!(parts.count(name), Err(Refusal::NoMoment), "{name} {parts}");
        }
    }
}

#[test]
fn every_day() {
    let months = months();
    let mut days = 0;
    for pair in months.windows(2) {
        let [(year, month, first), (_, _, next)] = *pair else {
            unreachable!()
        };
        for day in first..next {
            second(DAY * day, moment(year, month, (day - first + 1) as u32, 0, 0, 0, 0));
            days += 1;
        }
    }
    assert_eq!(days, 213_636);
}

#[test]
fn every_second_of_some_days() {
    let months = months();
    let whole = [
        (1970, 1, 1),
        (2000, 2, 28),
        (2000, 2, 29),
        (2100, 2, 28),
        (2100, 3, 1),
        (2106, 2, 7),
        (2400, 2, 29),
        (2554, 7, 21),
    ];
    for (year, month, day) in whole {
        let &(_, _, first) = months.iter().find(|m| (m.0, m.1) == (year, month)).expect("a month");
        let start = DAY * (first + u64::from(day) - 1);
        for s in 0..DAY as u32 {
            second(
                start + u64::from(s),
                moment(year, month, day, s / 3600, s / 60 % 60, s % 60, 0),
            );
        }
    }
}

#[test]
fn ends_of_each_type() {
    both_ways("DT", 0xFFFF_FFFF, moment(2106, 2, 7, 6, 28, 15, 0));
    both_ways("LDT", u64::MAX, moment(2554, 7, 21, 23, 34, 33, 709_551_615));
    both_ways("TOD", 86_399_999, moment(0, 0, 0, 23, 59, 59, 999_000_000));
    both_ways("TIME_OF_DAY", 0, moment(0, 0, 0, 0, 0, 0, 0));
    both_ways("LTOD", DAY * NANO - 1, moment(0, 0, 0, 23, 59, 59, 999_999_999));
    both_ways("DATE", 86_401, moment(1970, 1, 2, 0, 0, 1, 0));
    for (name, count) in [
        ("DT", 1 << 32),
        ("TOD", 86_400_000),
        ("TOD", 1 << 32),
        ("LTOD", DAY * NANO),
        ("TIME", 5),
        ("LTIME", 5),
        ("INT", 5),
        ("", 0),
    ] {
        assert_eq!(Moment::of(name, count), Err(Refusal::NoMoment), "{name} {count}");
    }
}

#[test]
fn parts_that_name_no_moment() {
    let none = [
        ("DT", moment(2106, 2, 7, 6, 28, 16, 0)),
        ("DT", moment(2000, 1, 1, 0, 0, 60, 0)),
        ("DT", moment(2000, 1, 1, 0, 60, 0, 0)),
        ("DT", moment(2000, 1, 1, 24, 0, 0, 0)),
        ("DT", moment(2000, 1, 1, 0, 0, 0, 1)),
        ("DATE", moment(1969, 12, 31, 23, 59, 59, 0)),
        ("DT", moment(2001, 2, 29, 0, 0, 0, 0)),
        ("DT", moment(2000, 13, 1, 0, 0, 0, 0)),
        ("DT", moment(2000, 0, 1, 0, 0, 0, 0)),
        ("DT", moment(2000, 4, 31, 0, 0, 0, 0)),
        ("DT", moment(2000, 4, 0, 0, 0, 0, 0)),
        ("LDT", moment(2100, 2, 29, 0, 0, 0, 0)),
        ("LDT", moment(2554, 7, 21, 23, 34, 33, 709_551_616)),
        ("LDT", moment(2554, 7, 22, 0, 0, 0, 0)),
        ("LDT", moment(u32::MAX, 1, 1, 0, 0, 0, 0)),
        ("LDT", moment(2000, 1, 1, 0, 0, 0, 1_000_000_000)),
        ("TOD", moment(1970, 1, 1, 6, 0, 0, 0)),
        ("TOD", moment(0, 0, 0, 6, 0, 0, 1)),
        ("LTOD", moment(0, 0, 0, 24, 0, 0, 0)),
        ("TIME", moment(0, 0, 0, 6, 0, 0, 0)),
        ("LTIME", moment(1970, 1, 1, 6, 0, 0, 0)),
        ("date", moment(2000, 1, 1, 0, 0, 0, 0)),
    ];
    for (name, parts) in none {
        assert_eq!(parts.count(name), Err(Refusal::NoMoment), "{name} {parts}");
        assert_eq!(
            model::time::count(
                name.as_bytes(),
                [
                    parts.year,
                    parts.month,
                    parts.day,
                    parts.hour,
                    parts.minute,
                    parts.second,
                    parts.nanosecond
                ]
            ),
            None
        );
    }
    both_ways("LDT", 951_782_400 * NANO, moment(2000, 2, 29, 0, 0, 0, 0));
    assert!(moment(2400, 2, 29, 12, 0, 0, 5).count("LDATE").is_ok());
}

#[test]
fn shown_as_iso_8601() {
    assert_eq!(moment(2106, 2, 7, 6, 28, 15, 0).to_string(), "2106-02-07T06:28:15");
    assert_eq!(
        moment(2554, 7, 21, 23, 34, 33, 709_551_615).to_string(),
        "2554-07-21T23:34:33.709551615"
    );
    assert_eq!(moment(0, 0, 0, 6, 0, 0, 250_000_000).to_string(), "06:00:00.250");
}

/// What a type alone is read as, with pointers of `width`.
fn read(types: &[Type], width: u8, memory: &[u8]) -> Result<String, Refusal> {
    let book = TypeBook::new(book(types), width).expect("a book");
    let tape: Tape = book.root(0)?.read(memory)?;
    Ok(format!("{tape:?}"))
}

fn nat(bits: u32, value: u64) -> Result<String, Refusal> {
    Ok(format!("[{:?}]", Value::Nat { bits, value }))
}

#[test]
fn read_by_name() {
    let ty = |name: &str, id: u32, size: u32| Type::new(name).id(id).size(size);
    assert_eq!(read(&[ty("LDATE", 65, 8)], 4, &[1; 8]), nat(64, 0x0101_0101_0101_0101));
    assert_eq!(read(&[ty("LTOD", 30, 8)], 8, &[2, 0, 0, 0, 0, 0, 0, 0]), nat(64, 2));
    assert_eq!(read(&[ty("LDATE", 65, 12)], 8, &[0; 12]), Ok("[Map(0), End]".into()));
    assert_eq!(read(&[ty("LDT", 65, 6)], 8, &[0; 6]), Err(Refusal::Size));
    assert_eq!(
        read(
            &[ty("TIME", 65, 8).field("a", "X", 0, 4).field("b", "X", 4, 4)],
            8,
            &[3, 0, 0, 0]
        ),
        nat(32, 3)
    );
    assert_eq!(read(&[ty("TOD", 3, 4)], 8, &[0xFF; 4]), nat(32, 0xFFFF_FFFF));
    assert_eq!(read(&[ty("LTIME", 20, 4)], 8, &[9, 0, 0, 0, 0, 0, 0, 0]), nat(64, 9));
    assert_eq!(read(&[ty("TIME", 33, 1)], 8, &[1]), Err(Refusal::Size));
    assert_eq!(read(&[ty("XINT", 65, 8)], 8, &[0; 8]), Err(Refusal::Unreadable));
    let int = ty("INT", 2, 2);
    assert_eq!(
        read(&[ty("DATE", 2, 2).of("INT"), int], 8, &[1, 0]),
        Ok(format!("[{:?}]", Value::Int { bits: 16, value: 1 }))
    );
    assert_eq!(
        read(&[ty("X", 19, 4).of("DATE"), ty("DATE", 19, 4)], 8, &[1, 0, 0, 0]),
        nat(32, 1)
    );
}

#[test]
fn written_from_integers_only() {
    let write = |ty: Type, put: &dyn Fn(&mut TapeBuilder), image: &[u8]| {
        let book = TypeBook::new(book(&[ty]), 3).expect("a book");
        let mut builder = TapeBuilder::new(&book);
        put(&mut builder);
        let tape = builder.finish().expect("a tape");
        book.root(0).expect("a root").write(image, &tape)
    };
    let ty = |name: &str, id: u32| Type::new(name).id(id).size(4);
    assert_eq!(
        write(ty("TIME", 33), &|b| drop(b.bool(true)), &[0; 4]),
        Err(Refusal::Mismatch)
    );
    assert_eq!(
        write(ty("TOD", 30), &|b| drop(b.text("noon")), &[0; 4]),
        Err(Refusal::Mismatch)
    );
    assert_eq!(
        write(ty("DT", 4), &|b| drop(b.real32(1.0)), &[0; 4]),
        Err(Refusal::Mismatch)
    );
    assert_eq!(
        write(ty("DT", 65), &|b| drop(b.uint(1 << 32)), &[0; 3]),
        Err(Refusal::OutOfRange)
    );
    assert_eq!(
        write(ty("DT", 65), &|b| drop(b.int(-1)), &[0; 4]),
        Err(Refusal::OutOfRange)
    );
    assert_eq!(write(ty("DT", 65), &|b| drop(b.uint(5)), &[0; 3]), Err(Refusal::Size));
    assert_eq!(write(ty("DT", 65), &|b| drop(b.int(5)), &[0; 4]), Ok(vec![5, 0, 0, 0]));
}

#[test]
fn moments_of_records() {
    let types = [
        Type::new("S")
            .size(24)
            .field("Made", "DAY", 0, 4)
            .field("Shifts", "TIMES", 4, 8)
            .field("Count", "UDINT", 12, 4)
            .field("At", "LDT", 16, 8),
        Type::new("DAY").of("DATE").id(19).size(4),
        Type::new("DATE").id(19).size(4),
        Type::new("TIMES").of("TOD").id(65).size(8).dimensions(&[2]),
        Type::new("TOD").id(19).size(4),
        Type::new("UDINT").id(19).size(4),
        Type::new("LDT").id(21).size(8),
    ];
    let book = TypeBook::new(book(&types), 8).expect("a book");
    let mut memory = vec![0; 24];
    memory[..4].copy_from_slice(&86_401u32.to_le_bytes());
    memory[8..12].copy_from_slice(&21_600_000u32.to_le_bytes());
    memory[12] = 7;
    memory[16..].copy_from_slice(&u64::MAX.to_le_bytes());
    let root = book.root(0).expect("a root");
    let tape = root.read(&memory).expect("a read");
    let shown: Vec<String> = tape.iter().filter_map(|r| r.moment()).map(|m| m.to_string()).collect();
    assert_eq!(
        shown,
        [
            "1970-01-02T00:00:01",
            "00:00:00",
            "06:00:00",
            "2554-07-21T23:34:33.709551615"
        ]
    );
    let alone = book.find("TOD").expect("a type").read(&[1, 0, 0, 0]).expect("a read");
    assert_eq!(
        alone
            .iter()
            .next()
            .and_then(|r| r.moment())
            .map(|m| m.to_string())
            .as_deref(),
        Some("00:00:00.001")
    );
}
