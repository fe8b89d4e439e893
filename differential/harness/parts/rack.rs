//! A rack of delayed feeds, against a second routine: sample by sample, from all samples so far.

use super::port::more1090_generator::{RackState as Rack, rack_open as open, rack_run as run};
use crate::random::Random;
use crate::tally::Tally;

const MEMORY: usize = 8190;
const LENGTH: u64 = 9;
const FEEDS: u64 = 17;

pub fn compare(t: &mut Tally, r: &mut Random, count: u64) {
    stated(t);
    openings(t, r, count / 20);
    every_cut(t, r);
    for _ in 0..count / 500 + 20 {
        racks(t, r);
    }
    for _ in 0..count / 200 {
        forged(t, r);
    }
}

fn bits(list: &[f32]) -> Vec<u32> {
    // A NaN has many patterns: none is promised.
    list.iter().map(|x| if x.is_nan() { 0x7fc0_0000 } else { x.to_bits() }).collect()
}

/// Feed samples from `from` on: each number from all samples so far.
fn feed(delay: u64, gain: f32, all: &[f32], from: usize) -> Vec<f32> {
    let back = 2 * delay as usize;
    (from..all.len()).map(|n| if n < back { 0.0 } else { gain * all[n - back] }).collect()
}

/// The inputs of the readings, with their answers.
fn stated(t: &mut Tally) {
    let mut memory = vec![3.0; MEMORY];
    let opened = open(&mut memory, &[1], &[-0.0]);
    let mut room = [7.0; 4];
    let ran = run(opened.state, &mut memory, &[1.0; 4], &mut room);
    t.alike("rack: a gain of -0.0", 0, (0, 0, vec![0, 0, 0x8000_0000, 0x8000_0000]), (opened.refusal, ran.refusal, bits(&room)));
    t.alike("rack: no samples", 0, (0, ran.state), {
        let none = run(ran.state, &mut memory, &[], &mut []);
        (none.refusal, none.state)
    });
    let mut short = vec![3.0; MEMORY - 1];
    t.alike("rack: 9 before 17", 0, LENGTH, open(&mut short, &[4096], &[1.0]).refusal);
    t.alike("rack: a refusal keeps the memory", 0, vec![3.0; MEMORY - 1], short);
}

fn fits(delays: &[u64], gains: &[f32]) -> bool {
    (1..=16).contains(&delays.len()) && delays.iter().all(|&d| d < 4096) && gains.iter().all(|&g| (0.0..=1.0).contains(&g))
}

fn any_gain(r: &mut Random) -> f32 {
    let near = [0.0, -0.0, 1.0, f32::from_bits(0x3f80_0001), f32::from_bits(0x3f7f_ffff), f32::from_bits(1), f32::from_bits(0x8000_0001), f32::NAN, f32::INFINITY, -1.0];
    if r.once_in(12) { r.pick(&near) } else { r.unit() as f32 }
}

fn any_delay(r: &mut Random) -> u64 {
    let far = [4096, 65_536, 1 << 32, (1 << 32) + 5, u64::MAX];
    let other = r.below(4096) as u64;
    if r.once_in(20) { r.pick(&far) } else { r.pick(&[0, 1, 2, 17, 4094, 4095, other]) }
}

/// Openings of any settings: the refusal, the rack and the memory.
fn openings(t: &mut Tally, r: &mut Random, count: u64) {
    for k in 0..count {
        let feeds = r.pick(&[0, 1, 2, 3, 15, 16, 17, 40]);
        let delays: Vec<u64> = (0..feeds).map(|_| any_delay(r)).collect();
        let mut gains: Vec<f32> = (0..feeds).map(|_| any_gain(r)).collect();
        if r.once_in(10) {
            gains.push(0.5);
        }
        let length = if r.once_in(10) { r.pick(&[0, 1, 8189, 8191, 8192, 4095]) } else { MEMORY };
        let mut memory = vec![5.0; length];
        let o = open(&mut memory, &delays, &gains);
        let refusal = if length != MEMORY || delays.len() != gains.len() { LENGTH } else if fits(&delays, &gains) { 0 } else { FEEDS };
        let opened = refusal == 0;
        t.alike("rack: opening", k, refusal, o.refusal);
        t.alike("rack: memory opened", k, vec![if opened { 0.0 } else { 5.0 }; length], memory);
        let n = if opened { feeds } else { 0 };
        let at = |i: usize| if i < n { (delays[i], gains[i].to_bits()) } else { (0, 0) };
        let rows: Vec<(u64, u32)> = (0..16).map(at).collect();
        let ours: Vec<(u64, u32)> = (0..16).map(|i| (o.state.delays[i], o.state.gains[i].to_bits())).collect();
        t.alike("rack: opened", k, (n as u64, 0, rows), (o.state.feeds, o.state.seen, ours));
    }
}

/// A rack with its second routine: every call's answer, room and length.
struct Both {
    rack: Rack,
    memory: Vec<f32>,
    delays: Vec<u64>,
    gains: Vec<f32>,
    all: Vec<f32>,
}

impl Both {
    fn new(delays: &[u64], gains: &[f32]) -> Both {
        let mut memory = vec![f32::NAN; MEMORY];
        let rack = open(&mut memory, delays, gains).state;
        Both { rack, memory, delays: delays.to_vec(), gains: gains.to_vec(), all: Vec::new() }
    }

    fn call(&mut self, t: &mut Tally, samples: &[f32]) {
        let from = self.all.len();
        self.all.extend(samples);
        let mut room = vec![9.0; self.delays.len() * samples.len()];
        let ran = run(self.rack, &mut self.memory, samples, &mut room);
        let second: Vec<f32> = self.delays.iter().zip(&self.gains).flat_map(|(&d, &g)| feed(d, g, &self.all, from)).collect();
        t.alike("rack: feeds of a call", (from, samples.len()), (0, bits(&second)), (ran.refusal, bits(&room)));
        self.rack = ran.state;
    }

    /// A call that is refused changes nothing.
    fn refused(&mut self, t: &mut Tally, r: &mut Random) {
        let feeds = self.delays.len();
        let (memory, samples, room) = match r.below(5) {
            0 => (MEMORY, 2 * r.below(9) + 1, 0),
            1 => (MEMORY, 6, 6 * feeds + 1),
            2 => (MEMORY, 6, 6 * feeds - 1),
            3 => (MEMORY, 0, 1),
            _ => (r.pick(&[0, 8189, 8191]), 6, 6 * feeds),
        };
        let mut own = if memory == MEMORY { self.memory.clone() } else { vec![2.0; memory] };
        let before = bits(&own);
        let mut room = vec![9.0; room];
        let ran = run(self.rack, &mut own, &vec![1.0; samples], &mut room);
        t.alike("rack: a refused call", (memory, samples, room.len()), (LENGTH, self.rack, before, vec![9.0; room.len()]), (ran.refusal, ran.state, bits(&own), room));
    }
}

fn some_samples(r: &mut Random, n: usize) -> Vec<f32> {
    let special = [0.0, -0.0, f32::from_bits(1), f32::from_bits(0x0080_0000), f32::MAX, f32::INFINITY, f32::NAN, -1.0];
    (0..2 * n).map(|_| if r.once_in(40) { r.pick(&special) } else { r.normal() as f32 }).collect()
}

/// A run of 40 samples, cut at each place into two and three calls; and one of 4,200 around the longest delays.
fn every_cut(t: &mut Tally, r: &mut Random) {
    let delays = [0, 1, 2, 3, 19, 39, 40, 41, 4094, 4095];
    let gains = [1.0, 0.5, -0.0, 0.0, 0.3, 1.0, 0.7, 0.1, 1.0, 0.9];
    let samples = some_samples(r, 40);
    for a in 0..=40 {
        for b in (a..=40).step_by(3) {
            let mut both = Both::new(&delays, &gains);
            both.call(t, &samples[..2 * a]);
            both.refused(t, r);
            both.call(t, &samples[2 * a..2 * b]);
            both.call(t, &samples[2 * b..]);
        }
    }
    let long = some_samples(r, 4200);
    for cut in (0..20).chain(4085..4105).chain([4199, 4200]) {
        let mut both = Both::new(&[0, 1, 4094, 4095], &[0.25, 1.0, 0.5, -0.0]);
        both.call(t, &long[..2 * cut]);
        both.call(t, &long[2 * cut..]);
        both.call(t, &long[..2 * 5]);
    }
}

/// Any racks, on calls shorter than a delay and longer than the memory, refused ones between.
fn racks(t: &mut Tally, r: &mut Random) {
    let feeds = r.between(1, 16);
    let mut delays = Vec::new();
    let mut gains = Vec::new();
    for _ in 0..feeds {
        let (any, near, gain) = (r.below(4096) as u64, r.below(50) as u64, r.unit() as f32);
        delays.push(r.pick(&[0, 1, 4094, 4095, any, near]));
        gains.push(r.pick(&[0.0, -0.0, 1.0, 1e-38, gain]));
    }
    let mut both = Both::new(&delays, &gains);
    for _ in 0..r.between(1, 12) {
        let (few, some) = (r.below(100), r.below(3000));
        let n = r.pick(&[0, 1, 2, 4094, 4095, 4096, 9000, few, some]);
        let samples = some_samples(r, n);
        both.call(t, &samples);
        if r.once_in(3) {
            both.refused(t, r);
        }
    }
}

/// A state that no opening gave: read as docs/DECISIONS.md says, and nothing else is touched.
fn forged(t: &mut Tally, r: &mut Random) {
    let any = |r: &mut Random| r.pick(&[0, 1, 5, 16, 17, 4094, 4095, 4096, 8190, 1 << 40, u64::MAX]);
    let rack = Rack {
        feeds: r.pick(&[0, 1, 3, 16, 17, 1 << 20, u64::MAX]),
        seen: any(r),
        delays: std::array::from_fn(|_| any(r)),
        gains: std::array::from_fn(|_| r.unit() as f32 * 4.0 - 2.0),
    };
    let feeds = rack.feeds.min(16) as usize;
    let memory = some_samples(r, MEMORY / 2);
    let n = r.pick(&[0, 1, 7, 4095, 5000]);
    let samples = some_samples(r, n);
    let (seen, mut own) = (rack.seen.min(4095) as usize, memory.clone());
    let mut room = vec![9.0; feeds * samples.len()];
    let ran = run(rack, &mut own, &samples, &mut room);
    let held: Vec<f32> = memory.iter().chain(&samples).copied().collect();
    let second: Vec<f32> = (0..feeds)
        .flat_map(|i| {
            let (d, g, held) = (rack.delays[i].min(4095) as usize, rack.gains[i], &held);
            (0..2 * n).map(move |k| if k + 2 * seen < 2 * d { 0.0 } else { g * held[MEMORY + k - 2 * d] })
        })
        .collect();
    t.alike("rack: a forged state", (rack.feeds, rack.seen, n), (0, bits(&second)), (ran.refusal, bits(&room)));
    t.alike("rack: memory after", n, bits(&held[2 * n..]), bits(&own));
    t.alike("rack: seen after", (rack.seen, n), (4095.min(rack.seen.saturating_add(n as u64)), rack.feeds, rack.delays), (ran.state.seen, ran.state.feeds, ran.state.delays));
}
