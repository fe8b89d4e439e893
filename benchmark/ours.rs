//! The port, as a host calls it: opening, and run calls lent draws, noise and output in parts.

#[path = "../hosts/rust/more1090_generator.rs"]
mod more1090_generator;

use crate::loads::Load;
use crate::{Given, summed, timed};
use lent::NOISE;
pub use more1090_generator::SamplesPerPulse;
use more1090_generator::{DRAW_LEN, RECORD_LEN, Rack, Run, STOP_DONE};
use std::hint::black_box;

fn opened(load: &Load) -> Run {
    let (s, ac) = load.taps.split_at(load.setting.mode_s_taps_len());
    Run::open(&load.settings(), s, ac).expect("settings and taps in range")
}

pub fn open(load: &Load) {
    black_box(opened(load));
}

/// What a run gives in calls of so many samples, and how long it took from opening on.
pub fn run(load: &Load, call: usize, check: bool) -> (Given, f64) {
    let mut run = opened(load);
    timed(|| calls(&mut run, load, call, check))
}

/// A call is lent the draws that it is likely to take, one more, and noise for its output; where it wants draws before its
/// output is full, it is called again for the rest.
fn calls(run: &mut Run, load: &Load, call: usize, check: bool) -> Given {
    let mut given = Given::default();
    let window = DRAW_LEN * (2 + (1.1 * call as f64 * load.rate / load.setting.sample_rate() as f64) as usize);
    let mut output = vec![0.0; 2 * call];
    let mut records = vec![0; RECORD_LEN * window / DRAW_LEN];
    let (mut taken, mut used, mut full) = (0, 0, 0);
    loop {
        let draws = &load.draw_bytes[taken..(taken + window).min(load.draw_bytes.len())];
        let noise = &load.noise[used..used + 2 * call - full];
        let ran = run.call(draws, noise, &mut output[full..], &mut records);
        assert_eq!((ran.refusal, ran.value, ran.field), (0, 0, 0), "a call was refused");
        taken += DRAW_LEN * ran.draws_taken as usize;
        given.samples += ran.samples_written;
        given.records += ran.records_written;
        full += 2 * ran.samples_written as usize;
        used = (used + ran.noise_used as usize) % NOISE;
        if full == output.len() || ran.stop == STOP_DONE {
            let written = black_box(&output[..full]);
            if check {
                given.sum = summed(given.sum, written);
            }
            full = 0;
        }
        if ran.stop == STOP_DONE {
            return given;
        }
    }
}

/// How long a rack of sixteen feeds takes for so many samples, in calls of the size given.
pub fn rack(samples: usize, call: usize) -> f64 {
    let delays: Vec<u64> = (0..16).map(|i| 273 * i).collect();
    let mut rack = Rack::open(&delays, &[0.9; 16]).expect("delays and gains in range");
    let (input, mut room) = (vec![0.5; 2 * call], vec![0.0; 32 * call]);
    let feed = || {
        for _ in 0..samples / call {
            rack.call(black_box(&input), &mut room).expect("lengths that fit");
            black_box(&room);
        }
    };
    timed(feed).1
}
