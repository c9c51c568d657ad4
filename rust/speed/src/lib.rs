//! Books for the benchmarks, and the timing of two sides that take turns.

use model::make::{Type, book, wide};
use std::hint::black_box;
use std::time::Duration;

/// The types of the large books.
pub const TYPES: usize = 4_096;

fn name(n: usize) -> String {
    format!("ST_Recipe{n}")
}

/// A book of 4,096 types of four fields each; the first, the root, reaches all.
pub fn reached() -> Vec<u8> {
    reached_by(name)
}

/// The same with types of other names.
pub fn reached_by(name: fn(usize) -> String) -> Vec<u8> {
    let types: Vec<Type> = (0..TYPES)
        .map(|n| {
            (1..=4).fold(Type::new(&name(n)).size(16), |t, i| {
                t.field(&format!("nField{i}"), &name((4 * n + i) % TYPES), 4 * (i as u32 - 1), 4)
            })
        })
        .collect();
    book(&types)
}

/// A root of 4,096 fields, each of a name that the book lacks, in a book of 4,096 types.
pub fn lacking() -> Vec<u8> {
    let others = (1..TYPES).map(|n| Type::new(&name(n)).id(2).size(2));
    book(&[wide(TYPES as u32)].into_iter().chain(others).collect::<Vec<_>>())
}

/// A root of 4,000 fields, each of a type of its own, in a book of 20,000 types: more than an index of 16,384 numbers holds.
pub fn among_20_000() -> Vec<u8> {
    let root = (0..4_000).fold(Type::new("ST_Machine").size(8_000), |t, i| {
        t.field(&format!("nField{i}"), &name(5 * i), 2 * i as u32, 2)
    });
    let others = (0..19_999).map(|n| Type::new(&name(n)).id(2).size(2));
    book(&[root].into_iter().chain(others).collect::<Vec<_>>())
}

/// So many types of ours, each of which names a type that our book lacks, which names the next of ours: our book and the controller's.
pub fn alternating(pairs: usize) -> (Vec<u8>, Vec<u8>) {
    let link = |from: String, to: String| Type::new(&from).size(4).field("nField", &to, 0, 4);
    let ours: Vec<Type> = (0..pairs)
        .map(|n| link(name(n), format!("ST_Lacking{n}")))
        .chain([Type::new(&name(pairs)).id(2).size(2)])
        .collect();
    let lacking = (0..pairs).map(|n| link(format!("ST_Lacking{n}"), name(n + 1)));
    let all: Vec<Type> = ours.iter().cloned().chain(lacking).collect();
    (book(&ours), book(&all))
}

/// The root of a controller's book of 4,096 types, with 4,096 types of ours that the controller's book lacks and the root doesn't need: our
/// book and the controller's.
pub fn known_to_us_alone() -> (Vec<u8>, Vec<u8>) {
    let all = reached();
    let alone: Vec<Type> = (0..TYPES)
        .map(|n| Type::new(&format!("ST_Ours{n}")).id(2).size(2))
        .collect();
    ([&all[..5 * 512], &book(&alone)].concat(), all)
}

/// The leaves of the reads: name, id, size.
pub const LEAVES: [(&str, u32, u32); 8] = [
    ("INT", 2, 2),
    ("DINT", 3, 4),
    ("REAL", 4, 4),
    ("LREAL", 5, 8),
    ("BOOL", 33, 1),
    ("UDINT", 19, 4),
    ("STRING(15)", 30, 16),
    ("LWORD", 21, 8),
];

/// So many fields of mixed leaves, one after the other.
fn mixed(name: &str, fields: usize) -> Type {
    let mut t = Type::new(name);
    for i in 0..fields {
        let (of, _, size) = LEAVES[i % LEAVES.len()];
        let at = t.size;
        t = t.field(&format!("nField{i}"), of, at, size).size(at + size);
    }
    t
}

/// The root and what it is made of, among so many other types that there are 4,096.
fn among(root: Vec<Type>) -> Vec<u8> {
    let leaves = LEAVES.iter().map(|&(name, id, size)| Type::new(name).id(id).size(size));
    let mut types: Vec<Type> = root.into_iter().chain(leaves).collect();
    for n in types.len()..TYPES {
        types.push(Type::new(&name(n)).id(2).size(2));
    }
    book(&types)
}

/// A struct of 200 fields of mixed leaves in a book of 4,096 types, and a memory of it.
pub fn struct_of_200() -> (Vec<u8>, Vec<u8>) {
    let root = mixed("ST_Machine", 200);
    let size = root.size as usize;
    (among(vec![root]), memory(size))
}

/// An array of 10,000 structs of 6 fields in a book of 4,096 types, and a memory of it.
pub fn array_of_10_000() -> (Vec<u8>, Vec<u8>) {
    let element = mixed("ST_Item", 6);
    let size = 10_000 * element.size;
    let root = Type::new("ARRAY [1..10000] OF ST_Item")
        .of("ST_Item")
        .size(size)
        .dimensions(&[10_000]);
    (among(vec![root, element]), memory(size as usize))
}

/// An array of so many INTs in a book of 4,096 types, and a memory of it.
pub fn array_of_ints(count: u32) -> (Vec<u8>, Vec<u8>) {
    let root = Type::new("ARRAY OF INT").of("INT").size(2 * count).dimensions(&[count]);
    (among(vec![root]), memory(2 * count as usize))
}

/// A struct of 65,000 INTs, and a memory of it.
pub fn struct_of_65_000() -> (Vec<u8>, Vec<u8>) {
    let root = (0..65_000).fold(Type::new("ST_Machine").size(130_000), |t, i| {
        t.field(&format!("nField{i}"), "INT", 2 * i as u32, 2)
    });
    (book(&[root, Type::new("INT").id(2).size(2)]), memory(130_000))
}

/// A struct of 5,000 fields, each of a type of its own, in a book of 60,000 types, and a memory of it.
pub fn struct_among_60_000() -> (Vec<u8>, Vec<u8>) {
    let root = (0..5_000).fold(Type::new("ST_Machine").size(10_000), |t, i| {
        t.field(&format!("nField{i}"), &name(12 * i), 2 * i as u32, 2)
    });
    let mut types = vec![root];
    types.extend((0..60_000).map(|n| Type::new(&name(n)).id(2).size(2)));
    (book(&types), memory(10_000))
}

fn memory(size: usize) -> Vec<u8> {
    b"recipe 12\0glue 7\0bind".iter().copied().cycle().take(size).collect()
}

/// The medians of rounds in which the sides take turns, by the time on the processor.
pub fn turns(rounds: usize, sides: &mut [&mut dyn FnMut()]) -> Vec<Duration> {
    let mut times = vec![Vec::new(); sides.len()];
    for _ in 0..rounds {
        for (side, times) in sides.iter_mut().zip(&mut times) {
            let start = cpu_time();
            side();
            times.push(cpu_time() - start);
        }
    }
    times.into_iter().map(median).collect()
}

/// The time that this thread has had on a processor: other programs of the machine disturb it less than a clock.
fn cpu_time() -> Duration {
    #[repr(C)]
    struct Timespec {
        seconds: i64,
        nanoseconds: i64,
    }
    unsafe extern "C" {
        fn clock_gettime(clock: i32, time: *mut Timespec) -> i32;
    }
    const THREAD_CPUTIME: i32 = 3;
    let mut time = Timespec {
        seconds: 0,
        nanoseconds: 0,
    };
    // SAFETY: the C library's own function (Linux, 64 bits), and the time is lent for the call alone.
    let failed = unsafe { clock_gettime(THREAD_CPUTIME, &mut time) };
    assert_eq!(failed, 0, "no clock");
    Duration::new(time.seconds as u64, time.nanoseconds as u32)
}

fn median(mut times: Vec<Duration>) -> Duration {
    times.sort();
    times[times.len() / 2]
}

/// Times the port and another side, which take turns, and prints their line.
pub fn pair<A, B>(what: &str, rounds: usize, mut port: impl FnMut() -> A, mut other: impl FnMut() -> B) {
    let t = turns(rounds, &mut [&mut || keep(port()), &mut || keep(other())]);
    line(what, t[0], t[1]);
}

/// Keeps a value from being left out.
pub fn keep<T>(value: T) {
    black_box(value);
}

/// The head of a table.
pub fn head(title: &str, other: &str) {
    println!("\n{title:58} {:>12} {other:>12} {:>8}", "port", "port/it");
}

/// A line of a table: both times, and the port's speed as a part of the other's (above 1: the port is quicker).
pub fn line(what: &str, port: Duration, other: Duration) {
    let ratio = other.as_secs_f64() / port.as_secs_f64();
    println!("{what:58} {:>12} {:>12} {ratio:8.2}", shown(port), shown(other));
}

/// A time in the unit that suits it.
pub fn shown(time: Duration) -> String {
    let ns = time.as_secs_f64() * 1e9;
    match ns {
        ns if ns < 1e4 => format!("{ns:.0} ns"),
        ns if ns < 1e7 => format!("{:.1} us", ns / 1e3),
        ns => format!("{:.2} ms", ns / 1e6),
    }
}
