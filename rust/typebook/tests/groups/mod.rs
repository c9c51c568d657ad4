//! The groups of byte strings whose texts in UTF-8 are recorded as sums, as tools/record_marked_strings.py makes them.

const SECOND: [u8; 11] = [0x41, 0x7F, 0x80, 0x8F, 0x90, 0x9F, 0xA0, 0xBF, 0xC0, 0xE2, 0xFF];
const LATER: [u8; 6] = [0x41, 0x7F, 0x80, 0xBF, 0xC0, 0xF1];
const POOL: [u8; 19] = [
    0x41, 0x7F, 0x80, 0x8F, 0x90, 0x9F, 0xA0, 0xBF, 0xC2, 0xDF, 0xE0, 0xE2, 0xED, 0xEF, 0xF0, 0xF3, 0xF4, 0xF5, 0xFF,
];

/// The recorder's sequence.
struct Draw(u64);

impl Draw {
    fn below(&mut self, n: usize) -> usize {
        self.0 = self
            .0
            .wrapping_mul(6_364_136_223_846_793_005)
            .wrapping_add(1_442_695_040_888_963_407);
        (self.0 >> 32) as usize % n
    }

    fn drawn(&mut self) -> Vec<u8> {
        let plain = self.below(2) == 0;
        let len = self.below(40);
        (0..len)
            .map(|_| match plain {
                true => self.below(256) as u8,
                false => POOL[self.below(POOL.len())],
            })
            .collect()
    }
}

/// Every byte string of two bytes that begins with this one.
pub fn pairs(first: u8) -> Vec<Vec<u8>> {
    (0..=0xFF).map(|second| vec![first, second]).collect()
}

/// This byte with every class of second and third byte, and of second, third and fourth.
pub fn leads(first: u8) -> Vec<Vec<u8>> {
    let short = SECOND
        .iter()
        .flat_map(|&second| LATER.iter().map(move |&third| vec![first, second, third]));
    let long = short
        .clone()
        .flat_map(|bytes| LATER.iter().map(move |&fourth| [&bytes[..], &[fourth]].concat()));
    short.chain(long).collect()
}

/// A thousand byte strings, drawn from a state on.
pub fn random(state: u64) -> Vec<Vec<u8>> {
    let mut draw = Draw(state);
    (0..1000).map(|_| draw.drawn()).collect()
}

/// The sum of a group's texts, each followed by FFh.
pub fn sum(texts: impl Iterator<Item = Vec<u8>>) -> u64 {
    texts
        .flat_map(|text| text.into_iter().chain([0xFF]))
        .fold(0xCBF2_9CE4_8422_2325, |total, byte| {
            (total ^ u64::from(byte)).wrapping_mul(0x100_0000_01B3)
        })
}
