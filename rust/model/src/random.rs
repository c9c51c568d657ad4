//! Books, memories and damage made at random, from a seed.

use crate::Book;
use crate::block::{self, BLOCK};
use crate::category::{Category, determine};
use crate::make::{Type, book, mend};
use crate::resolve::{look_up, resolve};

/// A generator of numbers; one seed gives one run of them.
pub struct Rng(u64);

impl Rng {
    /// From a seed.
    pub fn new(seed: u64) -> Self {
        Self(seed.wrapping_mul(0x9E37_79B9_7F4A_7C15) ^ 0x5851_F42D_4C95_7F2D)
    }

    /// The next number.
    pub fn number(&mut self) -> u64 {
        self.0 = self.0.wrapping_add(0x9E37_79B9_7F4A_7C15);
        let z = (self.0 ^ self.0 >> 30).wrapping_mul(0xBF58_476D_1CE4_E5B9);
        let z = (z ^ z >> 27).wrapping_mul(0x94D0_49BB_1331_11EB);
        z ^ z >> 31
    }

    /// A number below `n`.
    pub fn below(&mut self, n: usize) -> usize {
        (self.number() % n.max(1) as u64) as usize
    }

    /// True in so many of a thousand cases.
    pub fn chance(&mut self, of_a_thousand: usize) -> bool {
        self.below(1000) < of_a_thousand
    }

    /// One of them.
    pub fn pick<T: Copy>(&mut self, from: &[T]) -> T {
        from[self.below(from.len())]
    }

    /// So many bytes.
    pub fn bytes(&mut self, n: usize) -> Vec<u8> {
        (0..n).map(|_| self.number() as u8).collect()
    }
}

/// A valid book, a root in it and a pointer width.
pub struct Made {
    /// The book.
    pub book: Vec<u8>,
    /// A type block's number.
    pub root: u32,
    /// The pointer width.
    pub width: u8,
}

const PLAIN: [(&str, u32, u32); 14] = [
    ("SINT", 16, 1),
    ("INT", 2, 2),
    ("DINT", 3, 4),
    ("LINT", 20, 8),
    ("USINT", 17, 1),
    ("UINT", 18, 2),
    ("UDINT", 19, 4),
    ("ULINT", 21, 8),
    ("REAL", 4, 4),
    ("LREAL", 5, 8),
    ("BIT", 33, 1),
    ("TIME", 19, 4),
    ("DT", 65, 4),
    ("LTOD", 21, 8),
];
const IDS: [u32; 21] = [
    0,
    1,
    2,
    3,
    4,
    5,
    16,
    17,
    18,
    19,
    20,
    21,
    30,
    31,
    32,
    33,
    34,
    65,
    65,
    66,
    u32::MAX,
];

/// Makes types one on another.
struct Maker<'r> {
    rng: &'r mut Rng,
    width: u8,
    /// How many of a thousand parts are off.
    wild: usize,
    /// Types with the bytes that a value of theirs takes.
    types: Vec<(Type, u32)>,
}

impl Maker<'_> {
    fn odd(&mut self) -> bool {
        self.rng.chance(self.wild)
    }

    fn fresh(&mut self, base: &str) -> String {
        let mut name = base.to_string();
        while self.types.iter().any(|(t, _)| t.name == name) {
            name = format!("{base}{}", self.rng.below(100_000));
        }
        name
    }

    fn add(&mut self, mut t: Type, takes: u32) {
        if self.odd() {
            match self.rng.below(5) {
                0 => t.size = t.size.wrapping_add(self.rng.pick(&[1, 2, 4, 1000, u32::MAX])),
                1 => {
                    t.id = self.rng.pick(&IDS);
                    t.flags &= if t.id == 30 { 63 } else { 31 };
                }
                2 => t.flags ^= 1 << self.rng.below(if t.id == 30 { 6 } else { 5 }),
                3 => t.type_name = self.some_name(),
                _ => t.size = 0,
            }
        }
        self.types.push((t, takes));
    }

    fn some_name(&mut self) -> String {
        match self.types.is_empty() || self.odd() {
            true => self.rng.pick(&["MISSING", "", "GONE", "INT"]).to_string(),
            false => self.types[self.rng.below(self.types.len())].0.name.clone(),
        }
    }

    /// A type made before, mostly a late one, and its bytes.
    fn target(&mut self, most: u32) -> (String, u32) {
        let fit: Vec<usize> = (0..self.types.len()).filter(|&i| self.types[i].1 <= most).collect();
        if fit.is_empty() || self.odd() {
            return (self.rng.pick(&["MISSING", "GONE", ""]).to_string(), 2);
        }
        let back = self.rng.below(fit.len()).min(self.rng.below(fit.len()));
        let (t, takes) = &self.types[fit[fit.len() - 1 - back]];
        (t.name.clone(), *takes)
    }

    fn leaf(&mut self) {
        let (name, id, size) = self.rng.pick(&PLAIN);
        match self.rng.below(10) {
            0 => {
                let size = self.rng.pick(&[0, 1, 2, 5, 9, 33]);
                let name = self.fresh("STRING");
                let flags = self.rng.pick(&[0, 32]);
                self.add(Type::new(&name).id(30).size(size).flags(flags), size);
            }
            1 => {
                let size = self.rng.pick(&[0, 1, 2, 6, 7, 20]);
                let name = self.fresh("WSTRING");
                self.add(Type::new(&name).id(31).size(size), size);
            }
            2 => {
                let name = self.fresh(&format!("{name}(0..9)"));
                self.add(Type::new(&name).id(id).size(size), size);
            }
            3 => self.enumeration(),
            4 => self.pointer(),
            5 => {
                let name = self.fresh("BOOL");
                self.add(Type::new(&name).of("BIT").id(33).size(1), 1);
            }
            6 => self.bare(),
            _ => {
                let name = self.fresh(name);
                self.add(Type::new(&name).id(id).size(size), size);
            }
        }
    }

    fn enumeration(&mut self) {
        let (id, size) = self
            .rng
            .pick(&[(16, 1), (2, 2), (3, 4), (20, 8), (17, 1), (18, 2), (65, 2)]);
        let name = self.fresh("E");
        let mut t = Type::new(&name).id(id).size(size).flags(4);
        for i in 0..self.rng.below(6) {
            let mut value = vec![0; size as usize];
            value[0] = i as u8;
            if self.odd() {
                value = self.rng.bytes(i);
            }
            let entry = if self.odd() { String::new() } else { format!("e{i}") };
            t = t.entry(&entry, &value);
        }
        self.add(t, size);
    }

    fn pointer(&mut self) {
        let of = self.some_name();
        let width = u32::from(self.width);
        let base = self
            .rng
            .pick(&["POINTER TO X", "REFERENCE TO X", "PVOID", "PCCH", "P", "R"]);
        let name = self.fresh(base);
        let flags = match base {
            "P" => 1,
            "R" => 2,
            _ => 0,
        };
        self.add(Type::new(&name).of(&of).size(width).flags(flags), width);
    }

    /// No fields: interfaces, bare function blocks, empty structs, nothings.
    fn bare(&mut self) {
        let width = u32::from(self.width);
        let (size, flags) = self.rng.pick(&[
            (4, 0),
            (8, 0),
            (12, 0),
            (16, 0),
            (0, 0),
            (6, 0),
            (3, 0),
            (1, 16),
            (8, 8),
            (4, 24),
        ]);
        let name = self.fresh("Z");
        let takes = if matches!((size, flags), (4 | 8, 0) | (8, 8)) {
            width
        } else {
            size
        };
        self.add(Type::new(&name).size(size).flags(flags), takes);
    }

    fn alias(&mut self) {
        let hops = if self.rng.chance(40) {
            self.rng.pick(&[2, 3, 30, 31, 32, 33])
        } else {
            1
        };
        let (mut to, takes) = self.target(4_000);
        for _ in 0..hops {
            if to.is_empty() {
                return;
            }
            let name = self.fresh("A");
            self.types.push((Type::new(&name).of(&to).id(2).size(takes), takes));
            to = name;
        }
    }

    fn structure(&mut self) {
        let base = self.rng.pick(&["S", "S", "S", "U", "FB", "I"]);
        let name = self.fresh(base);
        let mut t = Type::new(&name);
        if base == "I" {
            t.flags = self.rng.pick(&[8, 8, 24]);
        }
        let mut at = if base == "FB" { self.rng.pick(&[1, 4, 8]) } else { 0 };
        let mut end = 0;
        for i in 0..self.rng.below(7) {
            let (to, takes) = self.target(1_000);
            let offset = if base == "U" { 0 } else { at };
            let mut size = takes;
            if self.odd() {
                size = size.wrapping_add(self.rng.pick(&[1, 2, u32::MAX]));
            }
            let field = if self.odd() { String::new() } else { format!("f{i}") };
            t = t.field(&field, &to, offset, size);
            end = end.max(offset.saturating_add(takes));
            at = end + if self.rng.chance(200) { 1 } else { 0 };
        }
        t = t.size(end);
        self.add(t, end);
    }

    fn array(&mut self) {
        let mut counts: Vec<u32> = (0..=self.rng.below(3))
            .map(|_| self.rng.pick(&[1, 1, 2, 2, 3, 5, 0]))
            .collect();
        if self.rng.chance(30) {
            // Products past 2^64 and 2^128, with and without a zero that makes them 0.
            counts = vec![self.rng.pick(&[1 << 31, u32::MAX, 7]); 1 + self.rng.below(7)];
            counts.push(self.rng.pick(&[0, 1, 4]));
        }
        let all = counts.iter().fold(1u32, |p, &c| p.wrapping_mul(c));
        let (to, takes) = self.target(2_000 / all.max(1));
        let size = takes.wrapping_mul(all);
        let name = self.fresh("ARR");
        self.add(Type::new(&name).of(&to).size(size).dimensions(&counts), size);
    }

    /// Values in one another about 64 deep.
    fn nest(&mut self) {
        let (mut below, takes) = self.target(64);
        for _ in 0..50 + self.rng.below(15) {
            let name = self.fresh("N");
            let t = match self.rng.below(16) {
                0..=3 => Type::new(&name).of(&below).dimensions(&[1]),
                4 => Type::new(&name).of(&below).dimensions(&[1, 1]),
                _ => Type::new(&name).field("x", &below, 0, takes),
            };
            self.types.push((t.size(takes), takes));
            below = name;
        }
    }

    /// Types that hold themselves or each other.
    fn cycle(&mut self) {
        let (one, two) = (self.fresh("C"), self.fresh("D"));
        let size = self.rng.pick(&[0, 1, 4]);
        let pair = match self.rng.below(4) {
            0 => [
                Type::new(&one).size(size).field("me", &two, 0, size),
                Type::new(&two).of(&one).size(size).dimensions(&[1]),
            ],
            1 => [
                Type::new(&one)
                    .size(2)
                    .field("n", "INT", 0, 2)
                    .field("kids", &two, 2, 0),
                Type::new(&two).of(&one).dimensions(&[0]),
            ],
            2 => [
                Type::new(&one).of(&two).id(2).size(2),
                Type::new(&two).of(&one).id(2).size(2),
            ],
            _ => [
                Type::new(&one).size(size).field("me", &one, 0, size),
                Type::new(&two).size(size).field("up", &one, 0, size),
            ],
        };
        pair.into_iter().for_each(|t| self.types.push((t, size)));
    }
}

/// A book of types that mostly fit one another.
pub fn made(rng: &mut Rng) -> Made {
    let width = rng.pick(&[8, 8, 8, 8, 4, 4, 4, 2, 3, 0]);
    let wild = rng.pick(&[0, 0, 5, 20, 80]);
    let mut maker = Maker {
        rng,
        width,
        wild,
        types: Vec::new(),
    };
    for _ in 0..2 + maker.rng.below(3) {
        maker.leaf();
    }
    for _ in 0..1 + maker.rng.below(12) {
        match maker.rng.below(10) {
            0..=2 => maker.leaf(),
            3 => maker.alias(),
            4..=7 => maker.structure(),
            _ => maker.array(),
        }
    }
    if maker.rng.chance(60) {
        maker.cycle();
    }
    match maker.rng.chance(40) {
        true => maker.nest(),
        false => maker.structure(),
    }
    let mut types: Vec<Type> = maker.types.into_iter().map(|(t, _)| t).collect();
    let root = match rng.chance(700) {
        true => types[types.len() - 1].name.clone(),
        false => types[rng.below(types.len())].name.clone(),
    };
    for i in (1..types.len()).rev() {
        types.swap(i, rng.below(i + 1));
    }
    let before = types.iter().take_while(|t| t.name != root);
    Made {
        root: before.map(Type::blocks).sum(),
        book: book(&types),
        width,
    }
}

/// A type whose every part is drawn from small pools, without sense.
fn senseless(rng: &mut Rng, name: &str) -> Type {
    const SIZES: [u32; 14] = [0, 0, 1, 1, 2, 2, 2, 4, 4, 8, 8, 12, 16, 6];
    let other = rng.pick(&["", "", "", "GONE", "A", "B", "C", "INT", "BOOL", "INT(0..9)"]);
    let mut t = Type::new(name).of(other).id(rng.pick(&IDS)).size(rng.pick(&SIZES));
    if rng.chance(350) {
        for _ in 0..1 + rng.below(4) {
            let (name, of) = (
                rng.pick(&["a", "b", "c", ""]),
                rng.pick(&["A", "B", "C", "INT", "GONE", "TIME", "LDT", "TOD", ""]),
            );
            t = t.field(name, of, rng.pick(&[0, 0, 0, 1, 2, 4, 8]), rng.pick(&SIZES));
        }
    }
    if rng.chance(200) {
        t.dimensions = (0..1 + rng.below(8)).map(|_| rng.pick(&[0, 1, 1, 2, 2, 3])).collect();
    }
    let bits = if t.id == 30 { 6 } else { 5 };
    t.flags = (0..bits).map(|bit| u8::from(rng.chance(80)) << bit).sum();
    if t.flags & 4 != 0 || rng.chance(50) {
        for _ in 0..rng.below(4) {
            let value = [rng.below(3) as u8, 0, 0, 0, 0, 0, 0, 0];
            t = t.entry(rng.pick(&["p", "q", ""]), &value[..rng.below(9)]);
        }
    }
    t
}

/// A valid book of such types.
pub fn chaos(rng: &mut Rng) -> Made {
    const NAMES: [&str; 22] = [
        "A",
        "B",
        "C",
        "D",
        "",
        "BOOL",
        "INT",
        "TIME",
        "PVOID",
        "POINTER TO A",
        "REFERENCE TO B",
        "INT(0..9)",
        "x..(",
        "__XINT",
        "PCCH",
        "LTIME",
        "TOD",
        "DATE",
        "DATE_AND_TIME",
        "LDATE",
        "LDT",
        "LTOD",
    ];
    let mut types: Vec<Type> = Vec::new();
    for _ in 0..1 + rng.below(7) {
        let name = rng.pick(&NAMES);
        if types.iter().all(|t| t.name != name) {
            types.push(senseless(rng, name));
        }
    }
    let n = rng.below(types.len());
    let root = types[..n].iter().map(Type::blocks).sum();
    Made {
        root,
        book: book(&types),
        width: rng.pick(&[8, 8, 4, 2, 3, 0, 1, 255]),
    }
}

/// A memory for the root, mostly one that a read accepts.
pub fn memory(rng: &mut Rng, made: &Made) -> Vec<u8> {
    let book = Book::new(&made.book);
    let t = resolve(&book, made.width, made.root, false).unwrap_or(made.root);
    let size = takes(&book, made.width, t).min(1 << 14);
    let mut bytes = if rng.chance(700) {
        rng.bytes(size)
    } else {
        vec![0; size]
    };
    let mut budget = 2_000;
    fit(rng, &book, made.width, t, &mut bytes, &mut budget, 0);
    if rng.chance(40) {
        bytes.resize(rng.below(size + 4), 7);
    }
    bytes
}

/// The bytes that a read of the resolved type wants.
fn takes(book: &Book, width: u8, t: u32) -> usize {
    match determine(book.bytes, width, t) {
        Category::Pointer | Category::Reference | Category::Interface => usize::from(width),
        Category::Primitive | Category::SubRange | Category::Bitset => match block::id(book.bytes, t) {
            16 | 17 | 33 => 1,
            2 | 18 => 2,
            3 | 4 | 19 => 4,
            5 | 20 | 21 => 8,
            _ => block::size(book.bytes, t) as usize,
        },
        _ => block::size(book.bytes, t) as usize,
    }
}

/// Puts listed values into enumerations, and zeros into some texts.
fn fit(rng: &mut Rng, book: &Book, width: u8, t: u32, bytes: &mut [u8], budget: &mut usize, level: u32) {
    if *budget == 0 || level > 66 {
        return;
    }
    *budget -= 1;
    match determine(book.bytes, width, t) {
        Category::Enum => fit_entry(rng, book, t, bytes),
        Category::String if bytes.len() > 2 && rng.chance(500) => {
            let at = rng.below(bytes.len() - 1) & !1;
            bytes[at..at + 2].fill(0);
        }
        Category::Struct | Category::Union | Category::FunctionBlock => {
            for f in t + 1..=t + block::fields(book.bytes, t) {
                let (start, size) = (
                    block::offset(book.bytes, f) as usize,
                    block::size(book.bytes, f) as usize,
                );
                let Ok(inner) = look_up(book, width, f) else { return };
                if let Some(part) = bytes.get_mut(start..start + size) {
                    fit(rng, book, width, inner, part, budget, level + 1);
                }
            }
        }
        Category::Array => {
            let Ok(inner) = look_up(book, width, t) else { return };
            let size = block::size(book.bytes, inner).max(1) as usize;
            for part in bytes.chunks_exact_mut(size) {
                fit(rng, book, width, inner, part, budget, level + 1);
            }
        }
        _ => {}
    }
}

fn fit_entry(rng: &mut Rng, book: &Book, t: u32, bytes: &mut [u8]) {
    let first = t + 1 + block::fields(book.bytes, t);
    let values = (first..first + block::entries(book.bytes, t)).map(|e| block::value(book.bytes, e));
    let values: Vec<&[u8]> = values.filter(|v| v.len() == bytes.len()).collect();
    if !values.is_empty() && !rng.chance(10) {
        bytes.copy_from_slice(rng.pick(&values));
    }
}

/// Damages a book in one of the ways that 1 to 4 tell apart, or not at all; the length that is said of it.
pub fn damage(rng: &mut Rng, book: &mut Vec<u8>) -> usize {
    let blocks = book.len() / BLOCK;
    let at = rng.below(blocks) * BLOCK;
    match rng.below(9) {
        0 => return rng.below(2 * book.len() + 2),
        1 => return book.len() + rng.pick(&[1, BLOCK, usize::MAX / 2]),
        2 => book.truncate(rng.below(book.len() + 1)),
        3 => {
            let k = at + rng.below(BLOCK);
            book[k] ^= 1 << rng.below(8);
        }
        4 => {
            let any = rng.below(508);
            let k = at + rng.pick(&[0, 1, 1, 2, 3, 20, 52, 53, any, any]);
            book[k] = rng.pick(&[0, 1, 2, 3, 4, 8, 9, 31, 32, 64, 200, 201, 255]);
            mend(&mut book[at..at + BLOCK]);
        }
        5 => {
            let k = at + rng.pick(&[0, 1, 2, 3, 12, 16, 52, 53]);
            book[k] = book[k].wrapping_add(rng.pick(&[1, 255]));
            mend(&mut book[at..at + BLOCK]);
        }
        6 => {
            let copy = book[at..at + BLOCK].to_vec();
            book.extend(copy);
        }
        7 => {
            let other = rng.below(blocks) * BLOCK;
            for k in 0..BLOCK {
                book.swap(at + k, other + k);
            }
        }
        _ => {}
    }
    book.len()
}
