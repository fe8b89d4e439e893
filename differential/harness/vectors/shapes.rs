//! Digests of prototypes, delays, taps and pulse sums of made-up filters, by the reference's functions.

use reference::simulation::pulse_shape::{open, required_samples_for_apply};

/// What the program must print.
pub fn lines() -> Vec<u8> {
    let taps = lowpass(3);
    let mode_s = open::trapezoidal_pulse(38, 64, 307);
    let mode_ac = open::trapezoidal_pulse(40, 40, 278);
    let mut text = both(&open::convolve_full(&mode_s, &taps[..1486]));
    text += &both(&open::convolve_full(&mode_ac, &taps));
    text.into_bytes()
}

fn next(x: u64) -> u64 {
    (x * 1103515245 + 12345) % 0x8000_0000
}

fn lowpass(seed: u64) -> Vec<f32> {
    let mut x = seed;
    let mut tap = || {
        x = next(x);
        ((x / 128) as u32 as f32 / 8388608.0 - 1.0) * 0.002 + 0.004
    };
    (0..1515).map(|_| tap()).collect()
}

fn pulses(seed: u64) -> Vec<bool> {
    let mut x = seed;
    let mut pulse = || {
        x = next(x);
        x / 65536 % 2 == 1
    };
    (0..240).map(|_| pulse()).collect()
}

fn fold(digest: u64, values: &[f32]) -> u64 {
    values.iter().fold(digest, |d, x| {
        (d * 31 + u64::from(x.to_bits())) % 0x100_0000_0000_0000
    })
}

/// The reference's `compute_group_delay` at a trigger level; none where nothing crosses it, where the reference panics.
fn delay(prototype: &[f32], level: f32) -> Option<f64> {
    lent::lend_taps(&[], level);
    let crosses = prototype.windows(2).any(|w| w[0] <= level && level < w[1]);
    crosses.then(|| open::group_delay(prototype))
}

fn both(prototype: &[f32]) -> String {
    let mut text = format!("prototype {:016x}\n", fold(0, prototype));
    let taps = (0..4096).fold(0, |d, k| {
        fold(d, &open::filter_taps(prototype, f64::from(k) / 4096.7))
    });
    text += &format!("taps {taps:016x}\n");
    for level in [0.5, 0.25, 0.9, 15.0, 0.1] {
        text += &format!("delay {:016x}\n", delay(prototype, level).map_or(0, f64::to_bits));
    }
    for (seed, len) in [(5, 240), (6, 128), (7, 43), (8, 52)] {
        let on = &pulses(seed)[..len];
        for (first, e) in [(0.0, 0.0), (1.1, -0.1), (0.37, 0.1), (0.999, 0.034)] {
            let values = open::values_of_pulses(prototype, on, first, e);
            assert!(values.len() <= required_samples_for_apply(len));
            text += &format!("reply {} {:016x}\n", values.len(), fold(0, &values));
        }
    }
    text
}
