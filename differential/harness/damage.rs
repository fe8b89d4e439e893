//! Tapes at and beyond each limit of the specification: for each limit the last value inside and the first outside. What must
//! come of each is worked out by the rules and the reference, as for any tape.

use crate::make::{self, GREATEST_LEVEL, LEAST_LEVEL, LEVELS_OUT_OF_RANGE, MODE_AC_LIMIT, NO_SETTINGS};
use crate::tape::*;
use std::f64::consts::PI;

/// A changed tape and what was changed; its parts, where only values changed and not the layout.
pub struct Damaged {
    pub what: String,
    pub bytes: Vec<u8>,
    pub tape: Option<Tape>,
}

/// Goes through damages of a tape in a fixed order and makes those whose numbers are wanted.
struct Maker<'a> {
    base: &'a Tape,
    wanted: &'a dyn Fn(usize) -> bool,
    number: usize,
    made: Vec<Damaged>,
}

impl<'a> Maker<'a> {
    fn over(base: &'a Tape, wanted: &'a dyn Fn(usize) -> bool, damages: fn(&mut Maker)) -> Maker<'a> {
        let mut m = Maker {
            base,
            wanted,
            number: 0,
            made: Vec::new(),
        };
        damages(&mut m);
        m
    }

    fn change(&mut self, what: String, f: impl FnOnce(&mut Tape)) {
        if self.next_is_wanted() {
            let mut t = self.base.clone();
            f(&mut t);
            let bytes = t.to_bytes();
            let tape = Some(t);
            self.made.push(Damaged { what, bytes, tape });
        }
    }

    fn bytes(&mut self, what: String, f: impl FnOnce(&mut Vec<u8>)) {
        if self.next_is_wanted() {
            let mut bytes = self.base.to_bytes();
            f(&mut bytes);
            let tape = None;
            self.made.push(Damaged { what, bytes, tape });
        }
    }

    fn next_is_wanted(&mut self) -> bool {
        self.number += 1;
        (self.wanted)(self.number - 1)
    }
}

const NOT_FINITE: [f64; 3] = [f64::NAN, f64::INFINITY, f64::NEG_INFINITY];
/// Not negative, then negative.
const SIGNS: [f64; 3] = [-0.0, -5e-324, 5e-324];

fn around(x: f64) -> [f64; 3] {
    [x, x.next_up(), x.next_down()]
}

/// How many damages a tape has.
pub fn count(base: &Tape) -> usize {
    Maker::over(base, &|_| false, all).number
}

/// What tries the damages of the worked tapes: the tape program, run calls, bookings, and replies alone.
#[derive(Clone, Copy)]
pub enum User {
    Texts,
    Runs,
    Bookings,
    Singles,
}

/// Which damages of a worked tape a user tries in a run: all of them. But at 8 samples per pulse an opening takes four times as
/// long, so where fewer than 1,000 tapes are asked for, each user tries there what is `always` tried and of the rest a quarter,
/// another one than the other users. So with any seed each damage falls to one of the four, and with four seeds in a row to all of
/// them; where the one that it falls to has no use for it, that seed leaves it out: bytes are for texts alone, bookings take no
/// noise, and replies alone take the first draw.
pub fn share(tapes: u64, seed: u64, user: User) -> impl Fn(usize) -> bool {
    let whole = SPP == 4 || tapes >= 1000;
    let kept = Maker::over(&make::worked(), &|_| false, always).number;
    move |k| whole || k < kept || (k as u64).wrapping_add(seed).wrapping_add(user as u64) % 4 == 0
}

/// The damages of a tape whose numbers, from 0, are wanted.
pub fn some(base: &Tape, wanted: &dyn Fn(usize) -> bool) -> Vec<Damaged> {
    Maker::over(base, wanted, all).made
}

fn all(m: &mut Maker) {
    always(m);
    rates(m);
    trigger_levels(m);
    taps(m);
    let draws = m.base.draws.len();
    for draw in [0, draws / 2, draws.saturating_sub(1)] {
        if draw < draws {
            for kind in 0..7 {
                fields(m, draw, kind);
            }
        }
    }
    noise(m);
    counts(m);
}

/// Those at limits that are others at 8 samples per pulse. They come first, and are as many on every tape, so that `share` knows
/// their numbers.
fn always(m: &mut Maker) {
    samples_per_pulse(m);
    durations(m);
    distributions(m);
}

/// Samples per pulse that are refused, with faults that come behind them; and the other setting's, by which everything else is
/// then judged.
fn samples_per_pulse(m: &mut Maker) {
    for n in NO_SETTINGS.into_iter().chain([OTHER]) {
        m.change(format!("{n} samples per pulse"), |t| t.settings.samples_per_pulse = n);
        m.change(format!("{n} samples per pulse, 4,000,000,000 ns, level NaN"), |t| {
            t.settings.samples_per_pulse = n;
            t.settings.nanoseconds = 4_000_000_000;
            t.settings.trigger_level = f32::NAN;
        });
        m.change(format!("{n} samples per pulse, an offset between the limits"), |t| {
            t.settings.samples_per_pulse = n;
            t.settings.carrier = Asked { kind: 0, first: -6e6, second: 0.0 };
        });
        m.change(format!("{n} samples per pulse, a duration between the limits"), |t| {
            t.settings.samples_per_pulse = n;
            t.settings.seconds = 400_000_000;
        });
        m.change(format!("{n} samples per pulse, {} taps", THERE.mode_s_taps + THERE.mode_ac_taps), |t| {
            t.settings.samples_per_pulse = n;
            t.taps.resize(THERE.mode_s_taps + THERE.mode_ac_taps, 0.0);
            t.taps[0] = 17.0;
        });
        for (what, length) in [("nothing behind the settings", 128), ("settings one byte short", 127)] {
            m.bytes(format!("{n} samples per pulse, 4,000,000,000 ns, level NaN, {what}"), |b| {
                b[12..16].copy_from_slice(&4_000_000_000u32.to_le_bytes());
                b[123..127].copy_from_slice(&f32::NAN.to_le_bytes());
                b[127] = n;
                b.truncate(length);
            });
        }
    }
}

fn durations(m: &mut Maker) {
    for (seconds, nanoseconds) in [
        (0, 0),
        (0, 62),
        (0, 63),
        (0, 187),
        (0, 188),
        (0, 124),
        (0, 125),
        (281_474_976, 710_656_062),
        (281_474_976, 710_656_063),
        (1_152_921_504_606, 0),
        (0, 999_999_999),
        (0, 1_000_000_000),
        (0, u32::MAX),
        (562_949_953, 421_312_000),
        (562_949_953, 421_312_124),
        (562_949_953, 421_312_125),
        (562_949_953, 1_000_000_000),
        (u64::MAX, 0),
        (2_305_843_009_214, 0),
    ] {
        m.change(format!("duration {seconds} s {nanoseconds} ns"), |t| {
            t.settings.seconds = seconds;
            t.settings.nanoseconds = nanoseconds;
        });
    }
}

fn rates(m: &mut Maker) {
    for k in 0..7 {
        for x in [0.0].into_iter().chain(NOT_FINITE).chain(SIGNS) {
            m.change(format!("rate {k} is {x:e}"), |t| t.settings.rates[k] = x);
        }
    }
    for x in [0.0, -0.0, 5e-324, f64::MAX, f64::MAX / 7.0, f64::MAX / 8.0] {
        m.change(format!("all rates {x:e}"), |t| t.settings.rates = [x; 7]);
    }
    m.change("rates 0 and 4 wrong".into(), |t| {
        t.settings.rates[0] = -1.0;
        t.settings.rates[4] = -1.0;
    });
    m.change("a rate, a distribution and a tap wrong".into(), |t| {
        t.settings.rates[6] = f64::NAN;
        t.settings.phase.kind = 9;
        t.taps[0] = 17.0;
    });
}

fn distributions(m: &mut Maker) {
    for kind in [2, 255] {
        m.change(format!("carrier kind {kind}"), |t| t.settings.carrier.kind = kind);
        m.change(format!("phase kind {kind}"), |t| t.settings.phase.kind = kind);
        m.change(format!("clock kind {kind}"), |t| t.settings.clock.kind = kind);
    }
    m.change("carrier and clock kinds".into(), |t| {
        t.settings.carrier.kind = 3;
        t.settings.clock.kind = 3;
    });
    let asked = |kind, first, second| Asked { kind, first, second };
    let nyquist = [4_000_000.0, -4_000_000.0, 8_000_000.0, -8_000_000.0].into_iter().flat_map(around);
    for x in nyquist.chain(NOT_FINITE).chain(SIGNS) {
        m.change(format!("carrier constant {x:e}"), |t| {
            t.settings.carrier = asked(0, x, 0.0)
        });
        m.change(format!("carrier max {x:e}"), |t| {
            t.settings.carrier = asked(1, 1.0, x)
        });
        m.change(format!("carrier sigma {x:e}"), |t| {
            t.settings.carrier = asked(1, x, 1.0)
        });
        m.change(format!("phase constant {x:e}"), |t| {
            t.settings.phase = asked(0, x, x)
        });
        m.change(format!("phase uniform, ignored {x:e}"), |t| {
            t.settings.phase = asked(1, x, x)
        });
    }
    let tenth = around(0.1)
        .into_iter()
        .chain(around(-0.1))
        .chain(around(MODE_AC_LIMIT));
    for x in tenth.chain(NOT_FINITE).chain(SIGNS) {
        m.change(format!("clock constant {x:e}"), |t| {
            t.settings.clock = asked(0, x, f64::NAN)
        });
        m.change(format!("clock max {x:e}"), |t| {
            t.settings.clock = asked(1, x, f64::NAN)
        });
    }
}

/// Trigger levels at and beyond the limits, and with what is checked before and after them.
fn trigger_levels(m: &mut Maker) {
    for x in [0.5, 0.25, LEAST_LEVEL, LEAST_LEVEL.next_up(), GREATEST_LEVEL, GREATEST_LEVEL.next_down()] {
        m.change(format!("trigger level {x:e}"), |t| t.settings.trigger_level = x);
    }
    for x in LEVELS_OUT_OF_RANGE {
        m.change(format!("trigger level {x:e}"), |t| t.settings.trigger_level = x);
        m.change(format!("trigger level {x:e}, clock kind 2"), |t| {
            t.settings.trigger_level = x;
            t.settings.clock.kind = 2;
        });
        m.change(format!("trigger level {x:e}, a tap of 17"), |t| {
            t.settings.trigger_level = x;
            t.taps[0] = 17.0;
        });
        m.bytes(format!("trigger level {x:e}, nothing behind the settings"), |b| {
            b[123..127].copy_from_slice(&x.to_le_bytes());
            b.truncate(128);
        });
        m.bytes(format!("trigger level {x:e}, settings one byte short"), |b| {
            b[123..127].copy_from_slice(&x.to_le_bytes());
            b.truncate(127);
        });
    }
    m.bytes("settings of 119 bytes".into(), |b| {
        b.drain(123..128);
    });
    m.bytes("settings of 123 bytes".into(), |b| {
        b.remove(127);
    });
    // One level for both: a prototype that crosses it beside one whose top is the level, or just above it.
    for level in [LEAST_LEVEL, 0.25, GREATEST_LEVEL] {
        for (from, to) in [(0, MODE_S_TAPS), (MODE_S_TAPS, TAPS)] {
            for top in [level, level.next_up(), level.next_down()] {
                m.change(format!("trigger level {level:e}, taps {from} on: {top:e}"), |t| {
                    t.settings.trigger_level = level;
                    t.taps[from..to].fill(0.0);
                    t.taps[from] = top;
                });
            }
        }
    }
}

fn taps(m: &mut Maker) {
    for place in [0, 1, MODE_S_TAPS - 1, MODE_S_TAPS, TAPS - 1] {
        let over = 16f32.next_up();
        for x in [16.0, -16.0, over, -over, f32::NAN, f32::INFINITY] {
            m.change(format!("tap {place} is {x:e}"), |t| t.taps[place] = x);
        }
    }
    for (from, to) in [(0, MODE_S_TAPS), (MODE_S_TAPS, TAPS)] {
        let half = 0.5f32;
        for x in [0.0, half, half.next_up(), -1.0, 16.0, 1.0] {
            m.change(format!("taps {from} on: one, {x:e}"), |t| {
                t.taps[from..to].fill(0.0);
                t.taps[from + 3] = x;
            });
        }
        m.change(format!("taps {from} on: all 1"), |t| t.taps[from..to].fill(1.0));
        // The top of the prototype is 16 and one unit above it.
        for x in [0.0, 9.5e-7, 2e-6] {
            m.change(format!("taps {from} on: 16 and {x:e}"), |t| {
                t.taps[from..to].fill(0.0);
                t.taps[from + 3] = 16.0;
                t.taps[from + 4] = x;
            });
        }
    }
}

/// The fields of one draw made that type, with the values on each side of its limits.
fn fields(m: &mut Maker, at: usize, kind: u8) {
    let mut put = |what: String, f: &dyn Fn(&mut Draw)| {
        m.change(format!("draw {at} of type {kind}: {what}"), |t| {
            let d = &mut t.draws[at];
            d.kind = kind;
            d.df_pick = 0;
            d.ca_pick = 0;
            d.overlay = 1;
            d.data = 0;
            d.spi = 0;
            f(d);
        })
    };
    for x in NOT_FINITE.into_iter().chain(SIGNS) {
        put(format!("gap {x:e}"), &|d| d.gap = x);
        put(format!("cn0 {x:e}"), &|d| d.cn0 = x);
        put(format!("carrier draw {x:e}"), &|d| d.carrier = x);
        put(format!("phase draw {x:e}"), &|d| d.phase = x);
        put(format!("clock draw {x:e}"), &|d| d.clock = x);
    }
    for x in [
        1_048_576.0,
        1_048_576f32.next_up(),
        -0.0,
        -1e-45,
        f32::NAN,
        f32::INFINITY,
    ] {
        put(format!("amplitude {x:e}"), &|d| d.amplitude = x);
    }
    for x in around(PI).into_iter().chain(around(-PI)) {
        put(format!("phase draw {x:e}"), &|d| d.phase = x);
    }
    for x in around(0.1)
        .into_iter()
        .chain(around(-0.1))
        .chain(around(MODE_AC_LIMIT))
    {
        put(format!("clock draw {x:e}"), &|d| d.clock = x);
    }
    for n in [1, 2, 3, 10, 11, 255] {
        put(format!("DF pick {n}"), &|d| d.df_pick = n);
    }
    for (df, n) in [(0, 4), (0, 5), (1, 4), (1, 5), (1, 6), (2, 5), (0, 255)] {
        put(format!("DF pick {df}, CA pick {n}"), &|d| {
            (d.df_pick, d.ca_pick) = (df, n)
        });
    }
    for n in [0, 127, 128, 255] {
        put(format!("overlay {n}"), &|d| d.overlay = n);
    }
    for n in [4095, 4096, u16::MAX] {
        put(format!("data {n}"), &|d| d.data = n);
    }
    for n in [1, 2, 255] {
        put(format!("SPI {n}"), &|d| d.spi = n);
    }
    for n in [7, 255] {
        put(format!("type {n}"), &|d| d.kind = n);
    }
    put("cn0 and SPI wrong".into(), &|d| (d.cn0, d.spi) = (f64::NAN, 9));
}

fn noise(m: &mut Maker) {
    let n = m.base.noise.len();
    for place in [0, n / 2, n.saturating_sub(1)] {
        if place < n {
            let over = 64f32.next_up();
            for x in [
                64.0,
                -64.0,
                over,
                -over,
                f32::NAN,
                f32::INFINITY,
                f32::NEG_INFINITY,
            ] {
                m.change(format!("noise {place} is {x:e}"), |t| t.noise[place] = x);
            }
        }
    }
    for x in [64.0, 65.0] {
        m.change(format!("one noise value more, {x}"), |t| t.noise.push(x));
        m.change(format!("two noise values more, {x}"), |t| {
            t.noise.extend([0.0, x])
        });
    }
    for fewer in 1..4 {
        m.change(format!("{fewer} noise values fewer"), |t| {
            t.noise.truncate(n.saturating_sub(fewer))
        });
    }
    m.change("no noise".into(), |t| t.noise.clear());
    m.change("no draws".into(), |t| t.draws.clear());
    m.change("the last draw left out".into(), |t| {
        t.draws.pop();
    });
}

fn counts(m: &mut Maker) {
    let places = m.base.places();
    for (k, name) in ["settings", "taps", "draws", "noise"].into_iter().enumerate() {
        let right = u32_at(&m.base.to_bytes(), places[k]);
        for n in [0, right.wrapping_sub(1), right + 1, u32::MAX] {
            m.bytes(format!("{name} count {n}"), |b| {
                b[places[k]..places[k] + 4].copy_from_slice(&n.to_le_bytes())
            });
        }
    }
    for place in places {
        for cut in [
            place.saturating_sub(1),
            place,
            place + 1,
            place + 3,
            place + 4,
            place + 5,
        ] {
            m.bytes(format!("cut at byte {cut}"), |b| b.truncate(cut));
        }
    }
    m.bytes("one byte left over".into(), |b| b.push(0));
    m.change("a loud value in a short noise section".into(), |t| {
        t.noise.fill(65.0)
    });
    m.bytes("a bad noise value, and short".into(), |b| {
        let end = places[4];
        if places[3] + 8 < end {
            b[places[3] + 4..places[3] + 8].copy_from_slice(&f32::NAN.to_le_bytes());
            b.truncate(end - 1);
        }
    });
    for n in [399, 400, 401] {
        m.change(format!("{n} draws"), |t| {
            if let Some(d) = t.draws.pop() {
                let mut early = d;
                early.gap = 0.0;
                t.draws.resize(n - 1, early);
                t.draws.push(d);
            }
        });
    }
}
