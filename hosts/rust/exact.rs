//! Sine, cosine and logarithm by steps of their own, and the noise and lowpasses made of them: the same bits on every machine,
//! since each step is rounded as IEEE 754 says, and no mathematics library is asked.
use crate::draws::Random;
use crate::more1090_generator::SamplesPerPulse;
use std::f64::consts::{LN_2, PI, SQRT_2};

/// Half of PI, and what its f64 lacks.
const QUARTER_TURN: f64 = PI / 2.0;
const QUARTER_TURN_REST: f64 = 6.123233995736766e-17;

/// 1, -1 / 3!, 1 / 5! and so on from a first factorial in steps of two, each rounded once: the factorials are f64.
const fn inverse_factorials<const N: usize>(first: u64) -> [f64; N] {
    let (mut list, mut n, mut factorial) = ([0.0; N], 0, 1);
    while n < N {
        list[n] = (if n % 2 == 0 { 1.0 } else { -1.0 }) / factorial as f64;
        let last = first + 2 * n as u64;
        factorial *= (last + 1) * (last + 2);
        n += 1;
    }
    list
}

/// 1, 1 / 3, 1 / 5 and so on.
const fn inverse_odds<const N: usize>() -> [f64; N] {
    let (mut list, mut n) = ([0.0; N], 0);
    while n < N {
        list[n] = 1.0 / (2 * n + 1) as f64;
        n += 1;
    }
    list
}

const SINE: [f64; 8] = inverse_factorials(1);
const COSINE: [f64; 9] = inverse_factorials(0);
const LOGARITHM: [f64; 12] = inverse_odds();

/// The sum of the coefficients times powers of z.
fn series(coefficients: &[f64], z: f64) -> f64 {
    coefficients.iter().rev().fold(0.0, |sum, c| sum * z + c)
}

/// Sine and cosine of x, which is at most some thousands in size.
pub fn sin_cos(x: f64) -> (f64, f64) {
    let turns = (x / QUARTER_TURN).round();
    let r = x - turns * QUARTER_TURN - turns * QUARTER_TURN_REST;
    let z = r * r;
    let sin = r * series(&SINE, z);
    let cos = series(&COSINE, z);
    match turns as i64 & 3 {
        0 => (sin, cos),
        1 => (cos, -sin),
        2 => (-sin, -cos),
        _ => (-cos, sin),
    }
}

const MANTISSA_BITS: u32 = 52;
const EXPONENT_OF_ONE: u64 = 1023;

/// The natural logarithm of an x above 0 that is not subnormal.
pub fn ln(x: f64) -> f64 {
    let bits = x.to_bits();
    let part = bits & ((1 << MANTISSA_BITS) - 1);
    let mut mantissa = f64::from_bits(EXPONENT_OF_ONE << MANTISSA_BITS | part);
    let mut exponent = (bits >> MANTISSA_BITS) as f64 - EXPONENT_OF_ONE as f64;
    if mantissa > SQRT_2 {
        mantissa /= 2.0;
        exponent += 1.0;
    }
    let y = (mantissa - 1.0) / (mantissa + 1.0);
    exponent * LN_2 + 2.0 * y * series(&LOGARITHM, y * y)
}

/// Normal noise of a seed, by Box and Muller: an endless row of values.
pub struct Noise {
    random: Random,
    second: Option<f32>,
}

impl Noise {
    pub fn of_seed(seed: u64) -> Noise {
        Noise { random: Random(!seed), second: None }
    }
}

impl Iterator for Noise {
    type Item = f32;

    fn next(&mut self) -> Option<f32> {
        if let Some(second) = self.second.take() {
            return Some(second);
        }
        let r = (-2.0 * ln(1.0 - self.random.uniform())).sqrt();
        let (s, c) = sin_cos(2.0 * PI * self.random.uniform());
        self.second = Some((r * s) as f32);
        Some((r * c) as f32)
    }
}

/// A lowpass of sum 1: a sinc under a Hamming window. The cutoff is a part of the taps' rate.
fn lowpass(taps: usize, cutoff: f64) -> Vec<f32> {
    let last = (taps - 1) as f64;
    let tap = |k: usize| {
        let x = 2.0 * PI * cutoff * (k as f64 - last / 2.0);
        let sinc = if x == 0.0 { 1.0 } else { sin_cos(x).0 / x };
        sinc * (0.54 - 0.46 * sin_cos(2.0 * PI * k as f64 / last).1)
    };
    let sum: f64 = (0..taps).map(tap).sum();
    (0..taps).map(|k| (tap(k) / sum) as f32).collect()
}

/// The lowpasses of a run, Mode S and Mode A/C, cut off at 4 MHz.
pub fn lowpasses(setting: SamplesPerPulse) -> (Vec<f32>, Vec<f32>) {
    let branches = 64.0 * f64::from(setting as u8);
    (
        lowpass(setting.mode_s_taps_len(), 2.0 / branches),
        lowpass(setting.mode_ac_taps_len(), 2.0 * 1450.0 / 1500.0 / branches),
    )
}
