//! Phases with what the reference's two wraps give for them, the sine steps of SPECIFICATION 6.11 and `f64::sin_cos`, as tables
//! of bit patterns in Rattle.

use crate::random::Random;
use crate::tally::pattern64;
use lent::sin_cos_by_steps as steps;
use reference::math::{phase_wrap_f64, phase_wrap_once_f64};
use std::f64::consts::PI;

const SMALL: [f64; 12] = [
    0.0,
    -0.0,
    5e-324,
    -5e-324,
    1e-310,
    -1e-310,
    2.2250738585072014e-308,
    -1e-300,
    1e-20,
    -1e-20,
    1e-16,
    -1e-16,
];

/// The file of tables.
pub fn tables() -> Vec<u8> {
    let mut random = Random::new(1090);
    let (wraps, phases) = (wraps(&mut random), phases(&mut random));
    let mut text = String::from(
        "// Bit patterns of phases and of the Rust's answers for them. Made by `harness vectors`.\n",
    );
    let rows = |list: &[f64], row: fn(f64) -> Vec<f64>| list.iter().map(|&x| row(x)).collect::<Vec<_>>();
    text += &table(
        "WRAPS",
        "Rows of three: a phase, `phase_wrap_f64` of it, and `phase_wrap_once_f64`.",
        &rows(&wraps, |x| vec![x, phase_wrap_f64(x), phase_wrap_once_f64(x)]),
    );
    text += &table(
        "PHASES",
        "Rows of five: a phase from -PI to PI, its sine and cosine by the steps of SPECIFICATION 6.11, and by `sin_cos`.",
        &rows(&phases, |x| {
            let ((s, c), (t, d)) = (steps(x), x.sin_cos());
            assert!(
                (-PI..=PI).contains(&x) && (s - t).abs() <= 2f64.powi(-23) && (c - d).abs() <= 2f64.powi(-23)
            );
            vec![x, s, c, t, d]
        }),
    );
    text += &table(
        "OTHERS",
        "Rows of three: any other f64, its sine and cosine by the steps of SPECIFICATION 6.11.",
        &rows(&others(), |x| vec![x, steps(x).0, steps(x).1]),
    );
    text.into_bytes()
}

fn with_neighbours(list: &mut Vec<f64>, x: f64) {
    list.extend([x.next_down(), x, x.next_up()]);
}

/// From -1 to below 1.
fn unit(random: &mut Random) -> f64 {
    (random.word() >> 11) as f64 / (1u64 << 52) as f64 - 1.0
}

fn wraps(random: &mut Random) -> Vec<f64> {
    let mut list = vec![f64::NAN, f64::INFINITY, f64::NEG_INFINITY, f64::MAX, f64::MIN];
    list.extend(SMALL);
    for k in (-6..=6).filter(|&k| k != 0) {
        with_neighbours(&mut list, f64::from(k) * PI);
    }
    for x in [1e4, 1e15, 9007199254740993.0, 1e17, 3.0e100, 1e300] {
        list.extend([x, -x]);
    }
    for _ in 0..12 {
        list.push(unit(random) * 3.0 * PI);
        list.push(unit(random) * 1e6);
        list.push(unit(random) * 1e200);
    }
    list
}

fn phases(random: &mut Random) -> Vec<f64> {
    let mut list = SMALL.to_vec();
    for k in -4..=4 {
        let x = f64::from(k) * 0.5 * (PI / 2.0);
        match k {
            -4 => list.extend([x, x.next_up()]),
            4 => list.extend([x.next_down(), x]),
            0 => {}
            _ => with_neighbours(&mut list, x),
        }
    }
    list.extend((0..160).map(|_| unit(random) * PI));
    for _ in 0..20 {
        let e = (random.word() % 60) as i32;
        list.push(unit(random) * 2f64.powi(-e));
    }
    list
}

fn others() -> Vec<f64> {
    let mut list = vec![f64::NAN, f64::INFINITY, f64::NEG_INFINITY, f64::MAX, f64::MIN];
    list.extend([
        PI.next_up(),
        -PI.next_up(),
        4.0,
        -4.0,
        6.283185307179586,
        -6.283185307179586,
    ]);
    list.extend([1e10, -1e10, 1e30, -1e30]);
    list
}

fn table(name: &str, about: &str, rows: &[Vec<f64>]) -> String {
    let mut text = format!(
        "\n// {about}\npub const {name}: [u64; {}] = [\n",
        rows.len() * rows[0].len()
    );
    for x in rows.iter().flatten() {
        let h = format!("{:016x}", pattern64(*x));
        text += &format!("    0x{}_{}_{}_{},\n", &h[0..4], &h[4..8], &h[8..12], &h[12..16]);
    }
    text + "];\n"
}
