//! The table of refusals (SPECIFICATION 3.1), rule by rule, written from the text alone.

use crate::tape::{Asked, Draw, Settings, numbers};
use std::f64::consts::PI;

/// A number of the table and the values that go with it.
#[derive(Debug, Clone, Copy, PartialEq, Eq)]
pub struct Refusal {
    pub number: u64,
    pub values: [Option<u64>; 2],
}

pub fn refusal(number: u64) -> Refusal {
    Refusal {
        number,
        values: [None, None],
    }
}

pub fn refusal_at(number: u64, a: u64) -> Refusal {
    Refusal {
        number,
        values: [Some(a), None],
    }
}

pub fn refused_draw(draw: u64, field: u64) -> Refusal {
    Refusal {
        number: 7,
        values: [Some(draw), Some(field)],
    }
}

/// Refusal 15, before which no length is known.
pub fn samples_per_pulse(s: &Settings) -> Result<(), Refusal> {
    numbers(s.samples_per_pulse).map(|_| ()).ok_or(refusal(15))
}

/// Refusal 1.
pub fn duration(s: &Settings) -> Result<(), Refusal> {
    if s.nanoseconds >= 1_000_000_000 || s.samples() > 1 << 52 {
        return Err(refusal(1));
    }
    Ok(())
}

/// Refusals 15, 1 to 4 and 14, in that order.
pub fn settings(s: &Settings) -> Result<(), Refusal> {
    samples_per_pulse(s)?;
    duration(s)?;
    for (k, &rate) in s.rates.iter().enumerate() {
        if !rate.is_finite() || rate < 0.0 {
            return Err(refusal_at(2, k as u64));
        }
    }
    let total = s.rates[1..].iter().fold(s.rates[0], |sum, r| sum + r);
    if total == 0.0 || !total.is_finite() {
        return Err(refusal(3));
    }
    let most = s.numbers().rate as f64 / 2.0;
    let right = [carrier(s.carrier, most), phase(s.phase), clock(s.clock)];
    match right.iter().position(|r| !r) {
        Some(k) => Err(refusal_at(4, k as u64)),
        None if !trigger_level(s.trigger_level) => Err(refusal(14)),
        None => Ok(()),
    }
}

/// From 0.1 to 0.9, as the nearest f32; a NaN is not.
fn trigger_level(level: f32) -> bool {
    (0.1..=0.9).contains(&level)
}

fn carrier(d: Asked, most: f64) -> bool {
    match d.kind {
        0 => d.first.abs() <= most,
        1 => d.first.is_finite() && d.first >= 0.0 && (0.0..=most).contains(&d.second),
        _ => false,
    }
}

fn phase(d: Asked) -> bool {
    match d.kind {
        0 => d.first.is_finite(),
        1 => true,
        _ => false,
    }
}

fn clock(d: Asked) -> bool {
    match d.kind {
        0 => d.first.abs() <= 0.1,
        1 => (0.0..=0.1).contains(&d.first),
        _ => false,
    }
}

/// Refusal 5, of the filters of a run of these settings.
pub fn taps(s: &Settings, mode_s: &[f32], mode_ac: &[f32]) -> Result<(), Refusal> {
    let n = s.numbers();
    let lengths = mode_s.len() == n.mode_s_taps && mode_ac.len() == n.mode_ac_taps;
    let small = mode_s.iter().chain(mode_ac).all(|t| t.abs() <= 16.0);
    if lengths && small { Ok(()) } else { Err(refusal(5)) }
}

/// Refusal 6, for the two prototypes, at one trigger level.
pub fn prototypes(all: [&[f32]; 2], level: f32) -> Result<(), Refusal> {
    for p in all {
        let small = p.iter().all(|x| x.abs() <= 16.0);
        let crosses = p.windows(2).any(|w| w[0] <= level && level < w[1]);
        if !small || !crosses {
            return Err(refusal(6));
        }
    }
    Ok(())
}

/// The clock error that a draw comes to.
pub fn clock_error(s: &Settings, d: &Draw) -> f64 {
    if s.clock.kind == 0 { s.clock.first } else { d.clock }
}

/// The first field of a draw that is out of range.
pub fn field_at_fault(s: &Settings, d: &Draw) -> Option<u64> {
    let rate = s.rates.get(usize::from(d.kind)).copied().unwrap_or(0.0);
    let mode_ac = d.kind == 6;
    let filter_error = 1500.0 / 1450.0 * (1.0 + clock_error(s, d)) - 1.0;
    let clock_right = s.clock.kind == 0 || d.clock.abs() <= s.clock.first;
    let right = [
        d.gap.is_finite() && d.gap >= 0.0,
        rate > 0.0,
        d.cn0.is_finite(),
        (0.0..=1_048_576.0).contains(&d.amplitude),
        s.carrier.kind == 0 || d.carrier.is_finite(),
        s.phase.kind == 0 || (-PI..PI).contains(&d.phase),
        clock_right && !(mode_ac && filter_error.abs() > 0.1),
        formats(d.kind).is_none_or(|n| d.df_pick < n),
        capabilities(d).is_none_or(|n| d.ca_pick < n),
        d.kind != 3 || (1..=127).contains(&d.overlay),
        true,
        !mode_ac || d.data < 4096,
        !mode_ac || d.spi < 2,
    ];
    right.iter().position(|r| !r).map(|k| k as u64)
}

/// How many formats a type picks from; a list of one uses no pick.
fn formats(kind: u8) -> Option<u8> {
    match kind {
        0 => Some(2),
        2 => Some(3),
        4 => Some(11),
        _ => None,
    }
}

/// How many capabilities, or DF 18 controls, a draw picks from.
fn capabilities(d: &Draw) -> Option<u8> {
    match d.kind {
        0 if d.df_pick == 1 => Some(6),
        0 | 1 | 3 => Some(5),
        _ => None,
    }
}

/// Refusal 7, for the ranges of lent draws.
pub fn draws(s: &Settings, draws: &[Draw]) -> Result<(), Refusal> {
    for (k, d) in draws.iter().enumerate() {
        if let Some(field) = field_at_fault(s, d) {
            return Err(refused_draw(k as u64, field));
        }
    }
    Ok(())
}

/// Refusal 8.
pub fn noise(noise: &[f32]) -> Result<(), Refusal> {
    match noise.iter().position(|x| !(x.abs() <= 64.0)) {
        Some(k) => Err(refusal_at(8, k as u64)),
        None => Ok(()),
    }
}
