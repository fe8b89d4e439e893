//! The stored answers: a fixed sample of what the Rust answers, kept in crates/test_floats/stdin and replayed there
//! by the port. To add a function, give it a letter in `FUNCTIONS` and an arm in that crate's `answer`.

use crate::random::{Random, SPECIAL};

type Function = fn(f64) -> u64;

/// A function of an f64 by its letter, with its answer as 64 bits.
const FUNCTIONS: [(char, Function); 3] = [
    ('n', |x| u64::from((x as f32).to_bits())),
    ('c', |x| ((x.ceil() as i64) as f64).to_bits()),
    ('u', |x| x as u64),
];

const OF_EACH: usize = 120;

/// The file: a line of 36 bytes for each answer. NaN is left out, since its pattern is not fixed.
pub fn file() -> Vec<u8> {
    let mut text = String::new();
    for (letter, f) in FUNCTIONS {
        let mut r = Random::new(u64::from(letter));
        let some = (0..OF_EACH).map(|_| r.argument());
        let points = if letter == 'n' { ties() } else { whole() };
        let all = SPECIAL.into_iter().chain(some).chain(points);
        for x in all.filter(|x| !x.is_nan()) {
            text += &format!("{letter} {:016x} {:016x}\n", x.to_bits(), f(x));
        }
    }
    text.into_bytes()
}

/// Each value and its negation.
fn signed(points: impl IntoIterator<Item = u64>) -> Vec<f64> {
    points
        .into_iter()
        .flat_map(|b| [b, b ^ (1 << 63)])
        .map(f64::from_bits)
        .collect()
}

/// Where narrowing to f32 ties, and beside it, with an even and an odd digit before: in the normal range, at a carry into the
/// exponent, at the overflow, at the step to subnormal values, and from 2^-127 to 2^-151.
fn ties() -> Vec<f64> {
    let bases: [u64; 5] = [
        0x3ff0_0000_0000_0000,
        0x4009_21fb_4000_0000,
        0x47ef_ffff_c000_0000,
        0x3810_0000_0000_0000,
        0x3fff_ffff_c000_0000,
    ];
    let beside = [0, 1, 0xfff_ffff, 0x1000_0000, 0x1000_0001, 0x1fff_ffff];
    let normal = bases
        .into_iter()
        .flat_map(move |base| [0, 0x2000_0000].map(|digit| base + digit));
    let normal = normal.flat_map(move |n| beside.map(|d| n + d));
    let digits: [u64; 6] = [
        0,
        1,
        0x8_0000_0000_0000,
        0x8_0000_0000_0001,
        0xc_0000_0000_0000,
        0xf_ffff_ffff_ffff,
    ];
    let fields: [u64; 8] = [896, 895, 880, 875, 874, 873, 872, 871];
    let subnormal = fields
        .into_iter()
        .flat_map(move |field| digits.map(|d| field << 52 | d));
    signed(normal.chain(subnormal))
}

/// Whole numbers and halves at which a ceiling or an integer's range changes, and beside them.
fn whole() -> Vec<f64> {
    let points: [f64; 11] = [
        0.5,
        1.0,
        1.5,
        2.0,
        31.11,
        255.0,
        256.0,
        4503599627370496.0,
        9007199254740992.0,
        9223372036854775808.0,
        18446744073709551616.0,
    ];
    signed(
        points
            .into_iter()
            .flat_map(|x| [x.to_bits() - 1, x.to_bits(), x.to_bits() + 1]),
    )
}
