//! Reals to try, as 64 bits: those at the edges of what a double can be, infinities and NaNs too, and random ones.

use super::Random;

/// The bits of the smallest normal number.
const NORMAL: u64 = 1 << 52;
/// The bits of infinity; those above are NaNs.
const INFINITE: u64 = 0x7FF << 52;
const SIGN: u64 = 1 << 63;

/// Numbers at edges of the format, of the whole numbers that fit IA, and of rounding. Each is tried with either sign.
const EDGES: [u64; 30] = [
    0,
    1,
    2,
    NORMAL - 1,
    NORMAL,
    NORMAL + 1,
    0x0010_0000_8000_0000,
    0x1E60_0000_0000_0000,
    0x2000_0000_0000_0001,
    0x3CA0_0000_0000_0000, // 2^-53
    0x3CA0_0000_0000_0001,
    0x3FB9_9999_9999_999A, // 0.1
    0x3FE0_0000_0000_0000, // 0.5
    0x3FEF_FFFF_FFFF_FFFF,
    0x3FF0_0000_0000_0000, // 1
    0x3FF0_0000_0000_0001,
    0x3FF8_0000_0000_0000, // 1.5
    0x4008_0000_0000_0000, // 3
    0x41DF_FFFF_FFBF_FFFF, // below 2147483647
    0x41DF_FFFF_FFC0_0000, // 2147483647
    0x41DF_FFFF_FFFF_FFFF, // below 2147483648
    0x41E0_0000_0000_0000, // 2147483648
    0x41E0_0000_001F_FFFF, // below 2147483649
    0x41E0_0000_0020_0000, // 2147483649
    0x433F_FFFF_FFFF_FFFF,
    0x4340_0000_0000_0000, // 2^53
    0x5FE0_0000_0000_0000, // 2^511
    0x7C90_0000_0000_0000,
    INFINITE - (1 << 52),
    INFINITE - 1, // the largest
];

/// What no real is.
const OTHERS: [u64; 5] = [INFINITE, INFINITE + 1, INFINITE | 1 << 51, INFINITE | 1 << 51 | 7, SIGN - 1];

/// All edges, with either sign.
pub fn edges() -> Vec<u64> {
    EDGES.iter().flat_map(|bits| [*bits, *bits | SIGN]).collect()
}

/// All edges and what no real is, with either sign.
pub fn pairs() -> Vec<u64> {
    edges().into_iter().chain(OTHERS.iter().flat_map(|bits| [*bits, *bits | SIGN])).collect()
}

/// A finite number: an edge, a small decimal, a whole number with or without a half, a neighbour of another, or any bits.
pub fn finite(r: &mut Random, other: u64) -> u64 {
    let bits = match r.below(8) {
        0..=2 => *r.pick(&EDGES),
        3 => (r.below(1_000_000) as f64 / 10f64.powi(r.below(7) as i32)).to_bits(),
        4 => (r.next() as i32 as f64 + if r.once_in(2) { 0.5 } else { 0.0 }).to_bits(),
        5 => other.wrapping_add(r.below(5) as u64).wrapping_sub(2),
        6 => r.next() % NORMAL,
        _ => r.next(),
    } ^ if r.once_in(2) { SIGN } else { 0 };
    if f64::from_bits(bits).is_finite() {
        bits
    } else {
        r.next() & !(1 << 62)
    }
}

/// Any pair of words: once in six no real at all.
pub fn pair(r: &mut Random, other: u64) -> u64 {
    if r.once_in(6) {
        return *r.pick(&OTHERS) ^ if r.once_in(2) { SIGN } else { 0 };
    }
    finite(r, other)
}

/// The two words of 64 bits, the low one first.
pub fn halves(bits: u64) -> [u32; 2] {
    [bits as u32, (bits >> 32) as u32]
}

/// The 64 bits of two words.
pub fn joined(low: u32, high: u32) -> u64 {
    low as u64 | (high as u64) << 32
}
