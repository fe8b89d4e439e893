//! to_uc8 SAMPLES OUT: cf32 at 8,000,000 samples a second as pairs of bytes at 2,400,000, which receivers for 1090 MHz take: a
//! lowpass, every 10/3rd sample, and the largest value scaled to a part of the bytes' range.
use std::f64::consts::PI;

/// Samples on both sides of one that it is made from.
const REACH: i64 = 24;
/// Of the lowpass, as a part of the input's rate: 1.1 MHz.
const CUTOFF: f64 = 1.1 / 8.0;
const LARGEST: f32 = 100.0;

/// A sinc under a Hamming window, at a distance in samples.
fn weight(distance: f64) -> f64 {
    let x = 2.0 * PI * CUTOFF * distance;
    let sinc = if x == 0.0 { 1.0 } else { x.sin() / x };
    2.0 * CUTOFF * sinc * (0.54 + 0.46 * (PI * distance / (REACH as f64 + 1.0)).cos())
}

/// The weights of a sample's neighbours where it lies no, one or two thirds of a sample behind the middle one.
fn weights() -> [Vec<f64>; 3] {
    [0.0, 1.0, 2.0].map(|thirds| (-REACH..=REACH).map(|k| weight(k as f64 - thirds / 3.0)).collect())
}

/// The sample at n / 3 samples of the input.
fn sample(input: &[[f32; 2]], weights: &[Vec<f64>; 3], n: i64) -> [f32; 2] {
    let (middle, thirds) = (n.div_euclid(3), n.rem_euclid(3));
    let mut sum = [0.0; 2];
    for (k, w) in (-REACH..=REACH).zip(&weights[thirds as usize]) {
        let Some(x) = usize::try_from(middle + k).ok().and_then(|at| input.get(at)) else { continue };
        sum = [sum[0] + w * f64::from(x[0]), sum[1] + w * f64::from(x[1])];
    }
    sum.map(|x| x as f32)
}

fn main() {
    let words: Vec<String> = std::env::args().skip(1).collect();
    let [from, to] = &words[..] else {
        eprintln!("usage: to_uc8 SAMPLES OUT");
        std::process::exit(2);
    };
    let failed = |name: &str, e: std::io::Error| -> ! {
        eprintln!("to_uc8: {name}: {e}");
        std::process::exit(3)
    };
    let bytes = std::fs::read(from).unwrap_or_else(|e| failed(from, e));
    let float = |b: &[u8]| f32::from_le_bytes([b[0], b[1], b[2], b[3]]);
    let input: Vec<[f32; 2]> = bytes.chunks_exact(8).map(|s| [float(&s[..4]), float(&s[4..])]).collect();
    let weights = weights();
    let output: Vec<[f32; 2]> = (0..input.len() as i64 * 3 / 10).map(|n| sample(&input, &weights, 10 * n)).collect();
    let largest = output.iter().flatten().fold(f32::MIN_POSITIVE, |a, x| a.max(x.abs()));
    let byte = |x: f32| (127.5 + x * LARGEST / largest).round() as u8;
    let out: Vec<u8> = output.iter().flatten().map(|x| byte(*x)).collect();
    std::fs::write(to, out).unwrap_or_else(|e| failed(to, e));
}
