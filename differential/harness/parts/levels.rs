//! Levels in tenths of a decibel: every level against the Rust's `MessageConfig::amplitude`, within one part in 2^22, and bit
//! for bit against a second routine in whole numbers.

use super::port::more1090_generator::level_into;
use crate::random::Random;
use crate::tally::Tally;
use reference::mode_s::ModeSMessage;
use reference::simulation::{MessageConfig, SSRReply, open};

const HIGHEST: u64 = 2000;

/// The levels at which the Rust has another f32: the next one above (docs/DIFFERENCES.md).
const OTHER_BITS: [u64; 7] = [51, 315, 343, 829, 1446, 1641, 1976];

/// The levels whose fraction is half way between two f32.
const TIES: [u64; 3] = [315, 343, 601];

pub fn compare(t: &mut Tally, r: &mut Random, count: u64) {
    let entries: Vec<u128> = (0..200).map(entry).collect();
    let (mut other_bits, mut ties) = (Vec::new(), Vec::new());
    for tenths in 0..=HIGHEST {
        let (refusal, x) = ours(tenths, r.word() as u32);
        let (whole, tie) = nearest(entries[tenths as usize % 200] * 10_u128.pow(tenths as u32 / 200));
        t.alike("level, by whole numbers", tenths, (0, whole), (refusal, x));
        if tie {
            ties.push(tenths);
        }
        let rust = by_the_rust(tenths);
        let (a, b) = (f64::from(f32::from_bits(x)), f64::from(rust));
        t.alike("level, within one part in 2^22 of the Rust's amplitude", tenths, true, (a - b).abs() * 4_194_304.0 <= b);
        if x != rust.to_bits() {
            t.alike("level with other bits than the Rust's, by one unit", tenths, rust.to_bits(), x + 1);
            other_bits.push(tenths);
        }
    }
    t.alike("levels with other bits than the Rust's", 0, OTHER_BITS.to_vec(), other_bits);
    t.alike("levels that are ties", 0, TIES.to_vec(), ties);
    for (tenths, bits) in [(0, 0x3503126f), (51, 0x356bc817), (315, 0x3799f168), (343, 0x37d48020), (601, 0x3a017b70), (2000, 0x45989680)] {
        t.alike("level, as the specification has it", tenths, (0, bits), ours(tenths, 0));
    }
    for tenths in (1..=16).map(|k| HIGHEST + k).chain((11..64).map(|k| 1 << k)).chain([u64::MAX, u64::MAX - HIGHEST]) {
        refused(t, r, tenths);
        let further = r.below(HIGHEST as usize + 1) as u64;
        refused(t, r, tenths.saturating_add(further));
    }
    for _ in 0..count / 4 {
        let tenths = r.word() >> r.below(54);
        if tenths > HIGHEST {
            refused(t, r, tenths);
        }
    }
}

/// The refusal, 0 for none, and the bits of the amplitude, where these were before.
fn ours(tenths: u64, before: u32) -> (u64, u32) {
    let mut amplitude = f32::from_bits(before);
    let refusal = level_into(tenths, &mut amplitude);
    (refusal, amplitude.to_bits())
}

/// A level that is refused leaves what was there, a NaN of any bits too.
fn refused(t: &mut Tally, r: &mut Random, tenths: u64) {
    let before = if r.once_in(4) { 0x7f80_0000 | r.word() as u32 } else { r.word() as u32 };
    t.alike("level refused", tenths, (13, before), ours(tenths, before));
}

/// The Rust takes dB Hz.
fn by_the_rust(tenths: u64) -> f32 {
    open::amplitude(&MessageConfig {
        timestamp_samples: 0.0,
        cn0_db: tenths as f64 / 10.0,
        carrier_frequency_offset: 0.0,
        carrier_phase: 0.0,
        symbol_clock_error: 0.0,
        message: SSRReply::ModeS(ModeSMessage::Short([0; 7])),
    })
}

// ---- the second routine

/// The largest t whose 200th power is at most 10^k * 2^6000, found beside a float.
fn entry(k: u32) -> u128 {
    let limit = times(&power(10, k), &power(2, 6000));
    let mut t = (10_f64.powf(f64::from(k) / 200.0) * 1_073_741_824.0) as u64;
    while is_above(&power(t, 200), &limit) {
        t -= 1;
    }
    while !is_above(&power(t + 1, 200), &limit) {
        t += 1;
    }
    u128::from(t)
}

/// The bits of the f32 nearest to w / (2,048,000 * 2^30), a tie to the even one, for normal results; and whether it is a tie.
fn nearest(w: u128) -> (u32, bool) {
    let scale = 2_048_000_u128 << 30;
    // w / scale is from 2^(e - 64) to below twice that
    let mut e = 0;
    while w << 64 >= scale << (e + 1) {
        e += 1;
    }
    // its significand is w * 2^(87 - e) / scale
    let (over, under) = if e <= 87 { (w << (87 - e), scale) } else { (w, scale << (e - 87)) };
    let (q, rest) = (over / under, over % under);
    let tie = 2 * rest == under;
    let up = 2 * rest > under || tie && q % 2 == 1;
    // the exponent's field is e - 64 + 127; a significand of 2^24 carries into it
    ((((e + 62) << 23) as u128 + q + u128::from(up)) as u32, tie)
}

/// Whole numbers as digits of 32 bits, lowest first, with no zero digit at the end.
type Digits = Vec<u32>;

fn times(a: &Digits, b: &Digits) -> Digits {
    let mut product = vec![0; a.len() + b.len()];
    for (i, &x) in a.iter().enumerate() {
        let mut carry = 0;
        for (j, &y) in b.iter().enumerate() {
            let sum = u64::from(x) * u64::from(y) + u64::from(product[i + j]) + carry;
            product[i + j] = sum as u32;
            carry = sum >> 32;
        }
        product[i + b.len()] = carry as u32;
    }
    while product.last() == Some(&0) {
        product.pop();
    }
    product
}

fn power(x: u64, n: u32) -> Digits {
    let base = times(&vec![x as u32, (x >> 32) as u32], &vec![1]);
    let mut result = vec![1];
    for bit in (0..32).rev() {
        result = times(&result, &result);
        if n >> bit & 1 == 1 {
            result = times(&result, &base);
        }
    }
    result
}

fn is_above(a: &Digits, b: &Digits) -> bool {
    (a.len(), a.iter().rev().collect::<Vec<_>>()) > (b.len(), b.iter().rev().collect::<Vec<_>>())
}
