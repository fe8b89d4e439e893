//! What a run costs as it grows: in its length, in replies at one place, in draws that a call is lent, and in feeds.
//!
//! `growth [SECONDS]`: the longest run in seconds of signal (100). One line for each case; times are of the processor's clock.
#![allow(dead_code)]
#[path = "../hosts/rust/more1090_generator.rs"]
mod more1090_generator;
mod random;

use more1090_generator::SamplesPerPulse::{self, Eight, Four};
use more1090_generator::{DRAW_LEN, RECORD_LEN, Rack, Run, STOP_DONE};
use random::Random;
use std::hint::black_box;
use std::time::Instant;

/// Samples of a call.
const CALL: usize = 4_096;

/// Noise values, used over and over.
const NOISE: usize = 1 << 20;

impl Random {
    /// From -1 to below 1.
    fn signed(&mut self) -> f64 {
        (self.next() >> 11) as f64 / (1u64 << 52) as f64 - 1.0
    }
}

/// A short Mode S reply a gap after the one before, at any carrier, phase and clock error of the settings.
fn draw(random: &mut Random, gap: f64) -> Vec<u8> {
    let mut b = Vec::with_capacity(DRAW_LEN);
    b.extend(gap.to_le_bytes());
    b.push(2);
    b.extend(80f64.to_le_bytes());
    b.extend(0.1f32.to_le_bytes());
    b.extend((1e5 * random.signed()).to_le_bytes());
    b.extend((3.1 * random.signed()).to_le_bytes());
    b.extend((5e-5 * random.signed()).to_le_bytes());
    b.extend([0; 3]);
    b.extend((0..14).map(|_| random.next() as u8));
    b.extend([0; 3]);
    b
}

fn settings(setting: SamplesPerPulse, seconds: u64) -> Vec<u8> {
    let mut b = Vec::new();
    b.extend(seconds.to_le_bytes());
    b.extend(0u32.to_le_bytes());
    b.extend([1f64; 7].iter().flat_map(|r| r.to_le_bytes()));
    for (first, second) in [(1e5f64, 1e6f64), (0.0, 0.0), (5e-5, 0.0)] {
        b.push(1);
        b.extend(first.to_le_bytes());
        b.extend(second.to_le_bytes());
    }
    b.extend(0.5f32.to_le_bytes());
    b.push(setting as u8);
    b
}

/// A window of cosine form, with a gain of 1.
fn lowpass(taps: usize) -> Vec<f32> {
    let width = taps as f64 / 40.0;
    let wanted: Vec<f64> = (0..taps).map(|k| 1.0 / (1.0 + ((k as f64 - taps as f64 / 2.0) / width).powi(8))).collect();
    let gain: f64 = wanted.iter().sum();
    wanted.iter().map(|x| (x / gain) as f32).collect()
}

struct Bench {
    setting: SamplesPerPulse,
    noise: Vec<f32>,
}

impl Bench {
    fn new(setting: SamplesPerPulse) -> Bench {
        let mut random = Random(1);
        Bench { setting, noise: (0..NOISE).map(|_| random.signed() as f32).collect() }
    }

    fn open(&self, seconds: u64) -> Run {
        Run::open(&settings(self.setting, seconds), &lowpass(self.setting.mode_s_taps_len()), &lowpass(self.setting.mode_ac_taps_len()))
            .expect("settings and taps in range")
    }

    fn samples(&self, seconds: u64) -> f64 {
        self.setting.sample_rate() as f64 * seconds as f64
    }

    /// Draws at a rate, to the end of a run.
    fn draws(&self, seconds: u64, rate: f64) -> Vec<u8> {
        let mut random = Random(2);
        let gap = self.setting.sample_rate() as f64 / rate;
        let mut all: Vec<u8> = (0..(seconds as f64 * rate) as usize).flat_map(|_| draw(&mut random, gap)).collect();
        all.extend(draw(&mut random, 2.0 * self.samples(seconds)));
        all
    }

    /// Seconds that a run takes on these draws, and what each call's samples are handed to.
    fn run(&self, seconds: u64, draws: &[u8], mut each: impl FnMut(&[f32])) -> f64 {
        let mut run = self.open(seconds);
        let (mut output, mut records) = (vec![0.0; 2 * CALL], vec![0; 64 * RECORD_LEN]);
        let (mut taken, mut used) = (0, 0);
        let began = Instant::now();
        loop {
            let lent = &draws[taken..(taken + 64 * DRAW_LEN).min(draws.len())];
            let ran = run.call(lent, &self.noise[used..used + 2 * CALL], &mut output, &mut records);
            assert_eq!(ran.refusal, 0, "a call was refused");
            taken += DRAW_LEN * ran.draws_taken as usize;
            used = (used + ran.noise_used as usize) % (NOISE - 2 * CALL);
            each(black_box(&output[..2 * ran.samples_written as usize]));
            if ran.stop == STOP_DONE {
                return began.elapsed().as_secs_f64();
            }
        }
    }
}

/// The run's length: 4,000 replies a second.
fn lengths(longest: u64) {
    let bench = Bench::new(Four);
    for seconds in [1, 10, 100] {
        if seconds <= longest {
            let draws = bench.draws(seconds, 4_000.0);
            let time = bench.run(seconds, &draws, |_| ());
            println!("{seconds:9} s of signal, 4,000 replies a second: {:8.2} ns a sample", time * 1e9 / bench.samples(seconds));
        }
    }
}

/// Replies that all begin at one sample, taken in one call.
fn overlaps() {
    let bench = Bench::new(Four);
    for count in [1usize, 10, 100, 1_000, 10_000, 100_000] {
        let mut random = Random(3);
        let draws: Vec<u8> = (0..count).flat_map(|n| draw(&mut random, if n == 0 { 1e3 } else { 0.0 })).collect();
        let mut records = vec![0; count * RECORD_LEN];
        let turns = 100_000 / count.max(100) + 1;
        let (mut time, mut added) = (0.0, 0);
        for _ in 0..turns {
            let mut run = bench.open(1);
            let mut output = vec![0.0; 2 * CALL];
            let began = Instant::now();
            let ran = run.call(&draws, &bench.noise[..2 * CALL], &mut output, &mut records);
            time += began.elapsed().as_secs_f64();
            assert_eq!((ran.refusal, ran.draws_taken), (0, count as u64), "a call was refused, or took fewer draws");
            added += ran.samples_added();
        }
        println!("{count:9} replies at one sample: {:8.2} ns a sample of a reply", time * 1e9 / added as f64);
    }
}

/// Draws that a call of 64 samples is lent and does not take.
fn lent() {
    let bench = Bench::new(Four);
    for count in [1usize, 100, 10_000, 100_000] {
        let mut random = Random(4);
        let draws: Vec<u8> = (0..count).flat_map(|_| draw(&mut random, 1e7)).collect();
        let mut run = bench.open(1_000);
        let mut output = vec![0.0; 128];
        let began = Instant::now();
        for _ in 0..100 {
            black_box(run.call(&draws, &bench.noise[..128], &mut output, &mut []));
        }
        println!("{count:9} draws lent to a call of 64 samples: {:10.0} ns a call", began.elapsed().as_secs_f64() * 1e9 / 100.0);
    }
}

/// A generator and sixteen feeds of it.
fn feeds() {
    for setting in [Four, Eight] {
        let bench = Bench::new(setting);
        for rate in [4_000.0, 40_000.0] {
            let delays: Vec<u64> = (0..16).map(|i| 273 * i).collect();
            let mut rack = Rack::open(&delays, &[0.9; 16]).expect("delays and gains in range");
            let mut room = vec![0.0; 32 * CALL];
            let draws = bench.draws(1, rate);
            let time = bench.run(1, &draws, |samples| {
                rack.call(samples, &mut room[..16 * samples.len()]).expect("lengths that fit");
                black_box(&room);
            });
            let (samples, a_second) = (bench.samples(1), setting.sample_rate() as f64 / 1e6);
            println!("{a_second:9} million samples a second, {rate:6} replies a second, sixteen feeds: {:8.2} ns a sample, {:.2} of real time", time * 1e9 / samples, time);
        }
    }
}

fn main() {
    let longest = std::env::args().nth(1).map_or(100, |w| w.parse().expect("seconds of the longest run"));
    lengths(longest);
    overlaps();
    lent();
    feeds();
}
