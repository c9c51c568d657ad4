//! Times the checks of a type book and the look-up of a type by its name.

use std::hint::black_box;
use std::time::Instant;

const BLOCK: usize = 512;
const ROUNDS: usize = 15;

unsafe extern "C" {
    fn gateway_check_book(buffer: *const u8, buffer_len: usize, len: usize) -> u8;
    fn gateway_find(book: *const u8, len: usize, name: *const u8, name_len: usize) -> u32;
    fn gateway_find_by(
        book: *const u8,
        len: usize,
        index: *const u32,
        slots: usize,
        name: *const u8,
        name_len: usize,
    ) -> u32;
    fn gateway_fill_index(book: *const u8, len: usize, index: *mut u32, slots: usize);
}

fn check_book(book: &[u8]) -> u8 {
    // The slice is lent for the call alone.
    unsafe { gateway_check_book(book.as_ptr(), book.len(), book.len()) }
}

fn find(book: &[u8], name: &[u8]) -> u32 {
    unsafe { gateway_find(book.as_ptr(), book.len(), name.as_ptr(), name.len()) }
}

fn find_by(book: &[u8], index: &[u32], name: &[u8]) -> u32 {
    unsafe {
        gateway_find_by(
            book.as_ptr(),
            book.len(),
            index.as_ptr(),
            index.len(),
            name.as_ptr(),
            name.len(),
        )
    }
}

fn fill_index(book: &[u8], index: &mut [u32]) {
    unsafe { gateway_fill_index(book.as_ptr(), book.len(), index.as_mut_ptr(), index.len()) }
}

fn name_of(n: usize) -> String {
    format!("ST_Recipe{n}")
}

/// A book of type blocks without fields, each of its own name.
fn made(types: usize) -> Vec<u8> {
    let mut book = vec![0u8; types * BLOCK];
    for (n, block) in book.chunks_mut(BLOCK).enumerate() {
        let name = name_of(n);
        block[0] = 1;
        block[4] = 2;
        block[8] = 2;
        block[52] = name.len() as u8;
        block[54..54 + name.len()].copy_from_slice(name.as_bytes());
        let sum: u32 = block[..508].iter().map(|&b| u32::from(b)).sum();
        block[508..].copy_from_slice(&sum.to_le_bytes());
    }
    book
}

/// The plain Rust loop over the same bytes: every block's sum.
fn sums(book: &[u8]) -> bool {
    book.chunks(BLOCK).all(|block| {
        let sum: u32 = block[..508].iter().map(|&b| u32::from(b)).sum();
        sum.to_le_bytes() == block[508..]
    })
}

/// Random bytes, books with right and wrong sums, lengths that lie, any index: each answer against a plain reading.
fn trial(rounds: usize) {
    let mut state = 88_172_645_463_325_252u64;
    let mut next = move || {
        state ^= state << 13;
        state ^= state >> 7;
        state ^= state << 17;
        state as usize
    };
    for _ in 0..rounds {
        let mut book: Vec<u8> = (0..next() % 4097)
            .map(|_| if next() % 3 == 0 { next() as u8 } else { 0 })
            .collect();
        for block in book.chunks_exact_mut(BLOCK) {
            if next() % 2 == 0 {
                block[0] = (1 + next() % 4) as u8;
                block[52] = (next() % 4) as u8;
                let sum: u32 = block[..508].iter().map(|&b| u32::from(b)).sum();
                block[508..].copy_from_slice(&sum.to_le_bytes());
            }
        }
        let len = if next() % 4 == 0 { next() } else { next() % 9 * BLOCK };
        let answer = unsafe { gateway_check_book(book.as_ptr(), book.len(), len) };
        if len % BLOCK != 0 || len > book.len() {
            assert_eq!(answer, 1);
        } else if !sums(&book[..len]) {
            assert_eq!(answer, 2);
        } else {
            assert!(matches!(answer, 0 | 3 | 4));
        }
        let name: Vec<u8> = (0..next() % 4)
            .map(|_| if next() % 3 == 0 { next() as u8 } else { 0 })
            .collect();
        let index: Vec<u32> = (0..next() % 65)
            .map(|_| {
                if next() % 2 == 0 {
                    next() as u32
                } else {
                    (next() % 12) as u32
                }
            })
            .collect();
        let named = |b: &[u8]| b[0] == 1 && b[52] as usize == name.len() && b[54..54 + name.len()] == name[..];
        let first = book.chunks_exact(BLOCK).position(named).map_or(u32::MAX, |n| n as u32);
        assert_eq!(find(&book, &name), first);
        let by = find_by(&book, &index, &name);
        assert_eq!(by == u32::MAX, first == u32::MAX);
        assert!(by == u32::MAX || named(&book[by as usize * BLOCK..][..BLOCK]));
    }
    println!("{rounds} rounds of random bytes, books, lengths, indexes and names: no difference");
}

fn median(mut call: impl FnMut()) -> f64 {
    let mut times = Vec::new();
    for _ in 0..ROUNDS {
        let start = Instant::now();
        call();
        times.push(start.elapsed().as_secs_f64());
    }
    times.sort_by(f64::total_cmp);
    times[times.len() / 2]
}

pub fn run() {
    trial(200_000);
    let large = made(65_536);
    assert_eq!(check_book(&large), 0);
    let whole = median(|| {
        black_box(check_book(black_box(&large)));
    });
    let plain = median(|| {
        black_box(sums(black_box(&large)));
    });
    // A wrong sum in the last block: every sum is taken, and nothing else.
    let mut damaged = large.clone();
    let last = damaged.len() - 1;
    damaged[last] = 1;
    assert_eq!(check_book(&damaged), 2);
    let summed = median(|| {
        black_box(check_book(black_box(&damaged)));
    });
    println!(
        "{:44} {:9.1} ms",
        "check_book, 65,536 types, all of 1 to 4",
        whole * 1e3
    );
    println!(
        "{:44} {:9.1} ms, a plain Rust loop {:.1} ms: {:.2} times",
        "its sums alone",
        summed * 1e3,
        plain * 1e3,
        summed / plain
    );

    let book = made(4_096);
    let mut index = vec![0u32; 16_384];
    fill_index(&book, &mut index);
    let names: Vec<String> = (0..4_096).step_by(13).map(name_of).collect();
    for name in &names {
        assert_eq!(find(&book, name.as_bytes()), find_by(&book, &index, name.as_bytes()));
    }
    let scan = median(|| {
        for name in &names {
            black_box(find(black_box(&book), name.as_bytes()));
        }
    });
    let quick = median(|| {
        for name in &names {
            black_box(find_by(black_box(&book), &index, name.as_bytes()));
        }
    });
    let each = |s: f64| s / names.len() as f64 * 1e9;
    println!(
        "{:44} {:9.0} ns, find {:.0} ns: {:.0} times quicker",
        "find_by, 4,096 types, index of 16,384",
        each(quick),
        each(scan),
        scan / quick
    );
}
