//! The crates `pulse_shape` and `filterbank`: prototypes, delays, taps, sums, and the values of whole messages.

use crate::parts::replies::pulses_of;
use crate::random::Random;
use crate::tally::{Tally, pattern32, pattern64, patterns};
use crate::tape::MODE_S_TAPS;
use crate::{judge, make};
use reference::simulation::pulse_shape::{open, required_samples_for_apply};
use reference::simulation::{self, SSRReply};

unsafe extern "C" {
    fn port_prototypes(
        mode_s: *const f32,
        mode_s_length: usize,
        mode_ac: *const f32,
        mode_ac_length: usize,
        out_s: &mut [f32; 1792],
        out_ac: &mut [f32; 1792],
    );
    fn port_group_delays(level: f32, prototype: *const f32, length: usize, out: &mut [f64; 2]);
    fn port_filter_taps(prototype: *const f32, length: usize, phase: f64, out: &mut [f32; 7]);
    safe fn port_pulse_sum(taps: &[f32; 7], on: &[bool; 240], length: usize, index: usize) -> f32;
    safe fn port_start_clock(phase: f64, index: &mut usize) -> f64;
    safe fn port_next_clock(phase: f64, error: f64, index: &mut usize) -> f64;
}

pub fn compare(t: &mut Tally, r: &mut Random, count: u64) {
    for _ in 0..(count / 1000).max(1) {
        let level = make::trigger_level(r);
        let taps = make::taps(r, level);
        let all = prototypes(t, &taps, level);
        for p in &all {
            for _ in 0..100 {
                taps_at(t, r, p);
            }
            delay(t, r, p, level);
        }
        messages(t, r, &all, &taps, level);
    }
}

/// The port's prototypes of the lent taps.
pub fn prototypes_of(taps: &[f32]) -> [[f32; 1792]; 2] {
    let (mode_s, mode_ac) = taps.split_at(MODE_S_TAPS);
    let (mut out_s, mut out_ac) = ([f32::NAN; 1792], [f32::NAN; 1792]);
    unsafe {
        port_prototypes(
            mode_s.as_ptr(),
            mode_s.len(),
            mode_ac.as_ptr(),
            mode_ac.len(),
            &mut out_s,
            &mut out_ac,
        );
    }
    [out_s, out_ac]
}

fn prototypes(t: &mut Tally, taps: &[f32], level: f32) -> [Vec<f32>; 2] {
    let expected = judge::prototypes(taps, level);
    let ours = prototypes_of(taps);
    for ((name, a), b) in ["mode_s_prototype", "mode_ac_prototype"]
        .into_iter()
        .zip(&expected)
        .zip(&ours)
    {
        t.alike(name, taps, patterns(a), patterns(b));
    }
    expected
}

/// The port's delays of a prototype at a trigger level, as one of Mode S and as one of Mode A/C.
fn both_delays(prototype: &[f32], level: f32) -> [f64; 2] {
    let mut out = [f64::NAN; 2];
    unsafe { port_group_delays(level, prototype.as_ptr(), prototype.len(), &mut out) };
    out
}

/// The port's delays of a Mode S and a Mode A/C prototype at one trigger level.
pub fn delays_of(mode_s: &[f32], mode_ac: &[f32], level: f32) -> [f64; 2] {
    [both_delays(mode_s, level)[0], both_delays(mode_ac, level)[1]]
}

/// A prototype as it is, and one with any values in some places, at the level that was lent. Where nothing crosses the Rust
/// panics.
fn delay(t: &mut Tally, r: &mut Random, p: &[f32], level: f32) {
    let mut other = p.to_vec();
    for _ in 0..r.below(6) {
        let k = r.below(other.len());
        other[k] = r.pick(&[
            level,
            0.0,
            -0.0,
            16.0,
            level.next_down(),
            level.next_up(),
            f32::NAN,
            f32::INFINITY,
            f32::NEG_INFINITY,
        ]);
    }
    let low: Vec<f32> = p.iter().map(|x| x.clamp(-16.0, level)).collect();
    for q in [p, &other, &low, &p[..r.below(3)]] {
        let crosses = q.windows(2).any(|w| (w[0]..w[1]).contains(&level));
        let (plain, mode_ac) = match crosses {
            true => (open::group_delay(q), open::group_delay(q) / (1500.0 / 1450.0)),
            false => (-1.0, -1.0),
        };
        t.see(if crosses {
            "prototype that crosses the level"
        } else {
            "prototype that does not cross the level"
        });
        let [ours, ours_ac] = both_delays(q, level);
        t.alike("group_delay", (level, q), pattern64(plain), pattern64(ours));
        t.alike("mode_ac_group_delay", (level, q), pattern64(mode_ac), pattern64(ours_ac));
    }
}

/// Phases below 1: at 1 and above the Rust panics.
fn taps_at(t: &mut Tally, r: &mut Random, p: &[f32]) {
    let branch = r.below(257) as f64 / 256.0;
    let phase = match r.below(6) {
        0 => branch,
        1 => branch.next_down(),
        2 => branch.next_up(),
        3 => 1.0 - r.unit() / 256.0,
        4 => r.any_f64(),
        _ => r.unit(),
    };
    if phase >= 1.0 {
        return;
    }
    let expected = open::filter_taps(p, phase);
    let mut ours = [f32::NAN; 7];
    unsafe { port_filter_taps(p.as_ptr(), p.len(), phase, &mut ours) };
    t.alike("filter_taps", phase, patterns(&expected), patterns(&ours));
    let mut on: [bool; 240] = std::array::from_fn(|_| r.once_in(2));
    let any = r.between(1, 240);
    let length = r.pick(&[43, 52, 128, 240, any]);
    on[length..].fill(false);
    let index = r.below(length + 6);
    let sum = open::convolve_taps_pulses(&expected, &on[..length], index);
    t.alike(
        "pulse_sum",
        (expected, on, length, index),
        pattern32(sum),
        pattern32(port_pulse_sum(&expected, &on, length, index)),
    );
}

/// The filterbank's values of a message by the port's functions.
pub fn values_of(prototype: &[f32], message: &SSRReply, phase: f64, error: f64) -> Vec<f32> {
    let (on, length, _) = pulses_of(message);
    let mut index = usize::MAX;
    let mut phase = port_start_clock(phase, &mut index);
    let mut all = Vec::new();
    let mut taps = [f32::NAN; 7];
    while index < length + 6 {
        unsafe { port_filter_taps(prototype.as_ptr(), prototype.len(), phase, &mut taps) };
        all.push(port_pulse_sum(&taps, &on, length, index));
        phase = port_next_clock(phase, error, &mut index);
    }
    all
}

/// Messages at any phase from 0 to below 4 and any clock error within 0.1.
fn messages(t: &mut Tally, r: &mut Random, all: &[Vec<f32>; 2], taps: &[f32], level: f32) {
    lent::lend_taps(taps, level);
    let s = make::settings(r, 6000);
    let d = judge::distributions(&s).expect("accepted settings");
    for draw in make::draws(r, &s, 6000).iter().take(5) {
        let m = judge::config(draw, 0.0, d).message;
        let p = &all[usize::from(matches!(m, SSRReply::ModeAC(_)))];
        let some = 4.0 * r.unit();
        let phase = r.pick(&[some, some, 0.0, 4f64.next_down(), 5e-324]);
        let within = r.within(0.1);
        let error = r.pick(&[within, within, 0.1, -0.1, 0.0, -0.0]);
        let expected = open::values(p, &m, phase, error);
        t.range("values of a message", expected.len() as u64);
        let ours = values_of(p, &m, phase, error);
        t.alike(
            "values of whole messages",
            (&m, phase, error),
            patterns(&expected),
            patterns(&ours),
        );
        let most = required_samples_for_apply(simulation::open::pulses(&m).len());
        t.alike(
            "values within the required samples",
            (&m, phase, error),
            true,
            expected.len() <= most,
        );
    }
}
