//! Random tapes from a seed: those that the specification accepts, with a leaning towards its limits.

use crate::judge;
use crate::random::Random;
use crate::rules;
use crate::tape::*;
use reference::simulation::pulse_shape;
use std::f64::consts::PI;

/// The largest clock error of a Mode A/C reply.
pub const MODE_AC_LIMIT: f64 = f64::from_bits(0x3fb0_369d_0369_d028);

/// The least and the greatest trigger level.
pub const LEAST_LEVEL: f32 = 0.1;
pub const GREATEST_LEVEL: f32 = 0.9;

/// The most samples of a reply, and the largest carrier offset.
const LIMIT: usize = HERE.longest_reply;
const NYQUIST: f64 = HERE.rate as f64 / 2.0;

/// Samples per pulse that are refused.
pub const NO_SETTINGS: [u8; 12] = [0, 1, 2, 3, 5, 6, 7, 9, 12, 16, 64, 255];

/// Trigger levels that are refused.
pub const LEVELS_OUT_OF_RANGE: [f32; 10] = [
    LEAST_LEVEL.next_down(),
    GREATEST_LEVEL.next_up(),
    f32::NAN,
    -f32::NAN,
    f32::INFINITY,
    f32::NEG_INFINITY,
    0.0,
    -0.0,
    -0.5,
    1.0,
];

/// A low-pass filter: a Hamming-windowed sinc of that many taps, cutoff at 4 MHz, sum about 1.
pub fn windowed_sinc(taps: usize) -> Vec<f32> {
    let middle = (taps - 1) as f64 / 2.0;
    let raw: Vec<f64> = (0..taps)
        .map(|k| {
            let t = 2.0 * 2.0 / (64.0 * f64::from(SPP)) * (k as f64 - middle);
            let sinc = if t == 0.0 { 1.0 } else { (PI * t).sin() / (PI * t) };
            sinc * (0.54 - 0.46 * (2.0 * PI * k as f64 / (taps - 1) as f64).cos())
        })
        .collect();
    let sum: f64 = raw.iter().sum();
    raw.iter().map(|x| (x / sum) as f32).collect()
}

/// Taps that are 0 but for one.
pub fn impulse(taps: usize, place: usize, size: f32) -> Vec<f32> {
    let mut t = vec![0.0; taps];
    t[place] = size;
    t
}

fn filter(r: &mut Random, taps: usize) -> Vec<f32> {
    match r.below(8) {
        0..3 => windowed_sinc(taps),
        3 => impulse(taps, 0, 1.0),
        4 => {
            let place = r.below(taps);
            let size = r.pick(&[1.0, 0.75, 0.51, 16.0]);
            impulse(taps, place, size)
        }
        5 => late(taps),
        6 => impulse(taps, 0, 16.0),
        _ => (0..taps).map(|_| r.within(0.3) as f32).collect(),
    }
}

/// A filter whose Mode S prototype crosses 0.5 three entries before its end, and at 8 samples per pulse four entries.
pub fn late(taps: usize) -> Vec<f32> {
    let mut t = vec![0.0; taps];
    let last = match SPP {
        4 => &[16.0, -8.0, 0.5, -16.0][..],
        _ => &[16.0, 16.0, -15.0, -15.0, -15.0],
    };
    for (k, &x) in last.iter().enumerate() {
        t[taps - 1 - k] = x;
    }
    t
}

/// Both filters, such that the prototypes are accepted at the trigger level.
pub fn taps(r: &mut Random, level: f32) -> Vec<f32> {
    loop {
        let t = [filter(r, MODE_S_TAPS), filter(r, MODE_AC_TAPS)].concat();
        let [a, b] = judge::prototypes(&t, level);
        if rules::prototypes([&a, &b], level).is_ok() {
            return t;
        }
    }
}

fn duration(r: &mut Random) -> usize {
    match r.below(8) {
        0 => r.pick(&[0, 1, 2, LIMIT - 1, LIMIT, LIMIT + 1, LIMIT + 2]),
        1 => r.between(LIMIT - 1, LIMIT + 33),
        2 => LIMIT + 6906,
        3 => r.between(LIMIT + 6906, LIMIT + 18_906),
        _ => r.between(LIMIT + 6, LIMIT + 4906),
    }
}

fn rates(r: &mut Random) -> [f64; 7] {
    match r.below(3) {
        0 => [1.0; 7],
        1 => std::array::from_fn(|_| r.unit() * 1000.0 + 5e-324),
        _ => {
            let mut all = std::array::from_fn(|_| r.pick(&[0.0, -0.0, 1.0, 1e300, 5e-324, 37.5]));
            all[r.below(7)] = 2.0;
            all
        }
    }
}

fn asked(kind: u8, first: f64, second: f64) -> Asked {
    Asked { kind, first, second }
}

fn carrier(r: &mut Random) -> Asked {
    let edge = r.pick(&[NYQUIST, -NYQUIST, 0.0, -0.0, 1e-300]);
    let some = r.within(NYQUIST);
    match r.below(5) {
        0 => asked(0, edge, f64::NAN),
        1 => asked(0, some, 0.0),
        2 => asked(1, r.pick(&[0.0, -0.0, 1e300, f64::MAX]), edge.abs()),
        3 => asked(1, 100e3, r.pick(&[0.0, -0.0, 1e6])),
        _ => asked(1, some.abs(), NYQUIST),
    }
}

fn phase(r: &mut Random) -> Asked {
    match r.below(4) {
        0 => {
            let edge = r.pick(&[
                PI,
                -PI,
                PI.next_down(),
                (-PI).next_down(),
                0.0,
                -0.0,
                1e300,
                f64::MIN,
                3.0 * PI,
            ]);
            asked(0, edge, 0.0)
        }
        1 => asked(0, r.within(100.0), f64::INFINITY),
        _ => asked(1, f64::NAN, -1.0),
    }
}

fn clock(r: &mut Random) -> Asked {
    match r.below(5) {
        0 => asked(
            0,
            r.pick(&[0.0, -0.0, 0.1, -0.1, MODE_AC_LIMIT, MODE_AC_LIMIT.next_up()]),
            0.0,
        ),
        1 => asked(0, r.within(0.1), f64::NAN),
        2 => asked(1, r.pick(&[0.0, -0.0, 50e-6, MODE_AC_LIMIT]), 7.0),
        _ => asked(1, 0.1, 0.0),
    }
}

/// 0.5, a level at or beside a limit, or any that is accepted.
pub fn trigger_level(r: &mut Random) -> f32 {
    let some = (f64::from(LEAST_LEVEL) + 0.8 * r.unit()) as f32;
    match r.below(4) {
        0 => 0.5,
        1 => r.pick(&[
            LEAST_LEVEL,
            LEAST_LEVEL.next_up(),
            0.25,
            GREATEST_LEVEL.next_down(),
            GREATEST_LEVEL,
        ]),
        _ => some.clamp(LEAST_LEVEL, GREATEST_LEVEL),
    }
}

/// The least nanoseconds that have so many samples.
pub fn nanoseconds(samples: usize) -> usize {
    (samples * 1_000_000_000).div_ceil(HERE.rate as usize)
}

pub fn settings(r: &mut Random, samples: usize) -> Settings {
    Settings {
        seconds: 0,
        nanoseconds: r.between(nanoseconds(samples), nanoseconds(samples + 1) - 1) as u32,
        rates: rates(r),
        carrier: carrier(r),
        phase: phase(r),
        clock: clock(r),
        trigger_level: trigger_level(r),
        samples_per_pulse: SPP,
    }
}

/// A draw that the settings accept, but for its gap, which is 0. Fields that are not used hold anything.
pub fn fields(r: &mut Random, s: &Settings) -> Draw {
    let kind = loop {
        let k = r.below(7);
        let refused = k == 6 && s.clock.kind == 0 && s.clock.first > MODE_AC_LIMIT;
        if s.rates[k] > 0.0 && !refused {
            break k as u8;
        }
        if s.rates[..6].iter().all(|x| !(*x > 0.0)) {
            break 6;
        }
    };
    let max = if s.clock.kind == 0 { 0.1 } else { s.clock.first };
    let most = if kind == 6 { max.min(MODE_AC_LIMIT) } else { max };
    let some = r.within(most);
    let clock = r.pick(&[some, some, most, -max, 0.0]);
    let wild = r.any_f64();
    let angle = r.within(PI);
    let df_pick = match kind {
        0 => r.below(2),
        2 => r.below(3),
        4 => r.below(11),
        _ => r.below(256),
    } as u8;
    let ca_pick = match kind {
        0 if df_pick == 1 => r.below(6),
        0 | 1 | 3 => r.below(5),
        _ => r.below(256),
    } as u8;
    let amplitude = r.unit() as f32;
    Draw {
        gap: 0.0,
        kind,
        cn0: r.within(120.0),
        amplitude: r.pick(&[amplitude, amplitude, 1.0, 0.0, -0.0, 1_048_576.0, 1e-45, 1e-20]),
        carrier: if s.carrier.kind == 0 {
            wild
        } else {
            r.pick(&[angle, 0.0, -0.0, 1e300, -1e300, 5e-324])
        },
        phase: if s.phase.kind == 0 {
            wild
        } else {
            r.pick(&[angle, angle, -PI, PI.next_down(), 0.0, -0.0])
        },
        clock: if s.clock.kind == 0 { wild } else { clock },
        df_pick,
        ca_pick,
        overlay: if kind == 3 {
            r.between(1, 127) as u8
        } else {
            r.below(256) as u8
        },
        bytes: if r.once_in(8) {
            [r.pick(&[0, 255]); 14]
        } else {
            r.bytes()
        },
        data: if kind == 6 {
            r.below(4096) as u16
        } else {
            r.word() as u16
        },
        spi: if kind == 6 {
            r.below(2) as u8
        } else {
            r.word() as u8
        },
    }
}

/// The time at which a draw's start is the given sample, as near as one can say.
fn time_for_start(s: &Settings, d: &Draw, start: f64) -> f64 {
    let delay = match d.kind {
        6 => pulse_shape::mode_ac_group_delay(),
        _ => pulse_shape::mode_s_group_delay(),
    };
    start + delay / (1.0 + rules::clock_error(s, d))
}

/// One draw after the given time.
fn draw(r: &mut Random, s: &Settings, samples: usize, time: f64, dense: bool) -> Draw {
    let mut d = fields(r, s);
    let some = r.unit();
    d.gap = match r.below(if dense { 4 } else { 8 }) {
        0 => r.pick(&[0.0, -0.0, 0.0, 1.0, 5e-324]),
        1 => some,
        2 | 3 => some * 40.0,
        4 => (some * 100.0).round() / 2.0,
        5 => {
            // A start near the last that is added, or near the first.
            let back = (LIMIT + r.pick(&[1, 2, 3, 0])) as f64 - 1.0;
            let start = r.pick(&[0.0, samples as f64 - back, samples as f64 - back]);
            (time_for_start(s, &d, start) - time).max(0.0)
        }
        6 => some * samples as f64,
        _ => some * 1500.0,
    };
    d
}

pub fn draws(r: &mut Random, s: &Settings, samples: usize) -> Vec<Draw> {
    let count = match r.below(12) {
        0 => 0,
        1 => 1,
        2 => r.between(200, 399),
        _ => r.between(2, 60),
    };
    let dense = r.once_in(2);
    let mut time = 0.0;
    let mut all = Vec::new();
    for _ in 0..count {
        let d = draw(r, s, samples, time, dense);
        time += d.gap;
        all.push(d);
    }
    if !r.once_in(16) {
        let mut last = fields(r, s);
        last.gap = r.pick(&[1e6, 1e300, f64::MAX]);
        all.push(last);
    }
    all
}

pub fn noise(r: &mut Random, samples: usize) -> Vec<f32> {
    let count = match r.below(8) {
        0 => 2 * samples + 1,
        1 => 2 * samples + r.below(200),
        2 if r.once_in(4) => (2 * samples).saturating_sub(r.between(1, 3)),
        _ => 2 * samples,
    };
    let zero = r.once_in(4);
    (0..count)
        .map(|_| {
            let x = r.normal() as f32;
            match (zero, r.below(40)) {
                (true, _) => 0.0,
                (_, 0) => r.pick(&[64.0, -64.0, 0.0, -0.0, 1e-45, -1e-42]),
                _ => x,
            }
        })
        .collect()
}

/// A tape on which first samples fall by as much as they can, 32 or near 64: Mode A/C replies with the earliest taps, and at the same
/// times Mode S replies with late taps and the slowest clock.
fn steep(r: &mut Random) -> Tape {
    let samples = r.between(LIMIT + 1906, LIMIT + 4906);
    let mut s = settings(r, samples);
    s.rates = [1.0; 7];
    s.clock = asked(1, 0.1, 0.0);
    let taps = [late(MODE_S_TAPS), impulse(MODE_AC_TAPS, 0, 16.0)].concat();
    let [a, b] = judge::prototypes(&taps, s.trigger_level);
    if rules::prototypes([&a, &b], s.trigger_level).is_err() {
        s.trigger_level = 0.5;
    }
    let mut time: f64 = 0.0;
    let mut draws = Vec::new();
    for k in 0..r.between(4, 60) {
        let mut d = fields(r, &s);
        if k % 2 == 0 {
            let next = time.ceil() + r.below(120) as f64 + 0.01 + 0.03 * r.unit();
            (d.kind, d.data, d.spi, d.clock) = (6, d.data % 4096, d.spi % 2, MODE_AC_LIMIT);
            d.gap = next - time;
        } else {
            (d.kind, d.df_pick, d.clock) = (r.pick(&[2, 4]), d.df_pick % 3, -0.1);
        }
        time += d.gap;
        draws.push(d);
    }
    let mut last = fields(r, &s);
    last.gap = 1e6;
    draws.push(last);
    Tape {
        settings: s,
        taps,
        draws,
        noise: noise(r, samples),
    }
}

/// A tape on which most steps meet subnormal numbers: rates of the least f64, an offset of so few Hz, from a phase of 0, that
/// sines are subnormal as f32, and noise of that size.
fn faint(r: &mut Random) -> Tape {
    let samples = r.between(LIMIT + 906, LIMIT + 4906);
    let mut s = settings(r, samples);
    s.rates = [5e-324; 7];
    s.carrier = asked(0, r.pick(&[1e-38, -1e-36, 1e-34, 1e-32]), 0.0);
    s.phase = asked(0, r.pick(&[0.0, -0.0]), 0.0);
    s.clock = asked(1, MODE_AC_LIMIT, 0.0);
    let taps = taps(r, s.trigger_level);
    let draws = draws(r, &s, samples);
    let noise = noise(r, samples).iter().map(|x| x * 1e-40).collect();
    Tape {
        settings: s,
        taps,
        draws,
        noise,
    }
}

pub fn tape(r: &mut Random) -> Tape {
    if r.once_in(30) {
        return if r.once_in(2) { steep(r) } else { faint(r) };
    }
    let samples = duration(r);
    let settings = loop {
        let s = settings(r, samples);
        // Mode A/C alone with a clock error that it does not have: no draw would be accepted.
        let none =
            s.rates[..6].iter().all(|x| !(*x > 0.0)) && s.clock.kind == 0 && s.clock.first > MODE_AC_LIMIT;
        if rules::settings(&s).is_ok() && !none {
            break s;
        }
    };
    let taps = taps(r, settings.trigger_level);
    let draws = draws(r, &settings, samples);
    let noise = noise(r, samples);
    Tape {
        settings,
        taps,
        draws,
        noise,
    }
}

/// The samples of the worked tape, a millisecond.
pub const WORKED_SAMPLES: usize = HERE.rate as usize / 1000;

/// The last start at which the worked tape's run has a reply.
pub const LAST_START: u64 = (WORKED_SAMPLES - LIMIT - 1) as u64;

/// The worked tape with one reply, at that start, and the draw that ends it.
pub fn one_reply_at(start: u64) -> Tape {
    let mut t = worked();
    t.draws = vec![t.draws[0], t.draws[2]];
    // The delay of the worked taps is below 1 sample, so that a whole time is its own start.
    t.draws[0].gap = start as f64;
    t
}

/// The worked tape (SPECIFICATION 11.3), at this program's samples per pulse.
pub fn worked() -> Tape {
    let zero = asked(0, 0.0, 0.0);
    let none = Draw {
        gap: 0.0,
        kind: 2,
        cn0: 0.0,
        amplitude: 0.0,
        carrier: 0.0,
        phase: 0.0,
        clock: 0.0,
        df_pick: 0,
        ca_pick: 0,
        overlay: 0,
        bytes: [0; 14],
        data: 0,
        spi: 0,
    };
    Tape {
        settings: Settings {
            seconds: 0,
            nanoseconds: 1_000_000,
            rates: [1.0; 7],
            carrier: zero,
            phase: zero,
            clock: zero,
            trigger_level: 0.5,
            samples_per_pulse: SPP,
        },
        taps: [impulse(MODE_S_TAPS, 0, 1.0), impulse(MODE_AC_TAPS, 0, 1.0)].concat(),
        draws: vec![
            Draw {
                gap: 100.0,
                df_pick: 1,
                ..none
            },
            Draw {
                gap: 50.5,
                kind: 6,
                data: 3584,
                ..none
            },
            Draw {
                gap: 1_000_000.0,
                ..none
            },
        ],
        noise: vec![0.0; 2 * WORKED_SAMPLES],
    }
}

/// The worked tape with every distribution drawn, and cut short.
pub fn worked_drawn() -> Tape {
    let mut t = worked();
    t.settings.nanoseconds = 250_000;
    t.settings.carrier = asked(1, 100e3, 1e6);
    t.settings.phase = asked(1, 0.0, 0.0);
    t.settings.clock = asked(1, 0.1, 0.0);
    t.draws[0].amplitude = 1.0;
    t.draws[1].clock = 0.05;
    t.settings.trigger_level = 0.75;
    t.noise.truncate(2 * WORKED_SAMPLES / 4);
    t
}
