//! One reply alone against `SingleMessageSimulation::run` of the reference, and its refusals against the table's rules.

use crate::judge::{self, Rng};
use crate::parts::port::more1090_generator as port;
use crate::random::Random;
use crate::rules::{self, Refusal, refusal};
use crate::tally::{Tally, bytes_of, first_difference};
use crate::tape::*;
use crate::{damage, make};
use reference::simulation::{SingleMessageSimulation, open};
use std::panic::{AssertUnwindSafe, catch_unwind};
use std::time::Duration;

/// What an output holds before a call; a refused call leaves it.
const MARK: f32 = -7.25;

/// From this start on the reference panics: the first f64 above 2^63.
const FIRST_PANIC: f64 = 9223372036854777856.0;

/// What is lent to a call.
struct Lent {
    settings: Vec<u8>,
    taps_s: Vec<f32>,
    taps_ac: Vec<f32>,
    draw: Vec<u8>,
    noise: Vec<f32>,
    output: usize,
}

impl Lent {
    fn of(tape: &Tape, draw: &Draw) -> Lent {
        let (taps_s, taps_ac) = tape.taps.split_at(MODE_S_TAPS);
        let samples = tape.settings.samples() as usize;
        Lent {
            settings: tape.settings.to_bytes(),
            taps_s: taps_s.to_vec(),
            taps_ac: taps_ac.to_vec(),
            draw: draw_to_bytes(draw),
            noise: tape.noise.clone(),
            output: 2 * samples,
        }
    }

    /// The refusal by the rules alone, or the settings and the draw.
    fn refusal(&self) -> Result<(Settings, Draw), Refusal> {
        if self.settings.len() != SETTINGS_BYTES {
            return Err(refusal(9));
        }
        let s = Settings::from_bytes(&self.settings);
        rules::samples_per_pulse(&s)?;
        let odd = self.output % 2 == 1 || self.draw.len() != DRAW_BYTES;
        if odd || (self.output == 0 && s.samples() > 0) {
            return Err(refusal(9));
        }
        rules::duration(&s)?;
        let numbers = 2 * s.samples();
        if self.output as u128 != numbers || self.noise.len() as u128 != numbers {
            return Err(refusal(12));
        }
        rules::settings(&s)?;
        rules::taps(&s, &self.taps_s, &self.taps_ac)?;
        let taps = [&self.taps_s[..], &self.taps_ac[..]].concat();
        let [a, b] = judge::prototypes(&taps, s.trigger_level);
        rules::prototypes([&a, &b], s.trigger_level)?;
        let d = draw_from_bytes(&self.draw);
        rules::draws(&s, std::slice::from_ref(&d))?;
        rules::noise(&self.noise)?;
        Ok((s, d))
    }

    fn bytes(&self) -> Vec<u8> {
        let mut b = [&self.settings[..], &self.draw[..]].concat();
        for list in [&self.taps_s, &self.taps_ac, &self.noise] {
            b.extend((list.len() as u32).to_le_bytes());
            b.extend(bytes_of(list));
        }
        b
    }
}

/// The reference's samples, and its start; nothing where it panics.
fn reference(s: &Settings, d: &Draw, noise: &[f32]) -> (i64, Option<Vec<f32>>) {
    let config = judge::config(d, d.gap, judge::distributions(s).expect("accepted"));
    let start = open::first_sample_index(&config);
    lent::lend(std::slice::from_ref(d), noise);
    lent::gap();
    let one = SingleMessageSimulation {
        duration: Duration::new(s.seconds, s.nanoseconds),
        message_config: config,
    };
    let made = catch_unwind(AssertUnwindSafe(|| one.run(&mut Rng {})));
    (start, made.ok().map(|iq| iq.iter().flat_map(|z| [z.re, z.im]).collect()))
}

fn one(t: &mut Tally, seed: &str, l: &Lent) {
    let mut output = vec![MARK; l.output];
    let r = port::single(&l.settings, &l.taps_s, &l.taps_ac, &l.draw, &l.noise, &mut output);
    let (number, values, samples) = match l.refusal() {
        Err(q) => {
            t.see(&format!("single: refused {}", q.number));
            (q.number, q.values.map(|v| v.unwrap_or(0)), vec![MARK; l.output])
        }
        Ok((s, d)) => {
            let (start, made) = reference(&s, &d, &l.noise);
            let end = s.samples() as i64;
            t.see(match start {
                _ if made.is_none() => "single: the reference panics",
                ..0 => "single: starts before sample 0",
                _ if start >= end => "single: starts past the end",
                _ if start + HERE.longest_reply as i64 >= end => "single: may be trimmed at the end",
                _ => "single: whole",
            });
            // Where the reference panics, the start is far past the end: noise alone.
            let noise_alone = || l.noise.iter().map(|v| v * 0.0009765625).collect();
            if made.is_none() && !(d.gap >= FIRST_PANIC) {
                t.see("single: a panic that is not in docs/DIFFERENCES.md");
            }
            (0, [0, 0], made.unwrap_or_else(noise_alone))
        }
    };
    let words = |w: [u64; 3]| w.map(u64::to_le_bytes).concat();
    let wrong = first_difference("answer", &words([number, values[0], values[1]]), &words([r.refusal, r.value, r.field]))
        .or_else(|| first_difference("samples", &bytes_of(&samples), &bytes_of(&output)));
    t.compare("one reply alone", seed, &l.bytes(), wrong);
}

/// A stretch of few samples, with a draw that starts around 0, around the end, or anywhere.
fn random(r: &mut Random) -> (Tape, Draw) {
    let samples = match r.below(6) {
        0 => r.pick(&[0, 1, 2, 3]),
        1 => r.between(1, 40),
        2 => r.between(HERE.longest_reply - 94, HERE.longest_reply + 106),
        _ => r.between(100, HERE.longest_reply + 1406),
    };
    let settings = make::settings(r, samples);
    let taps = make::taps(r, settings.trigger_level);
    let tape = Tape { settings, taps, draws: Vec::new(), noise: noise(r, 2 * samples) };
    let mut d = make::fields(r, &settings);
    d.gap = match r.below(8) {
        0 => r.pick(&[0.0, -0.0, 0.5, 1.0, 27.9, 31.0, 55.9, 62.0]),
        1 => r.unit() * 10.0 * f64::from(SPP),
        2 => samples as f64 + r.within(10.0 * f64::from(SPP)),
        3 => (samples as f64 - r.unit() * (HERE.longest_reply + 106) as f64).abs(),
        4 => r.pick(&[1e6, 4503599627370496.0, 9223372036854775808.0, FIRST_PANIC, 1e300, f64::MAX]),
        _ => r.unit() * (samples + 40) as f64,
    };
    d.gap = d.gap.abs();
    (tape, d)
}

/// Noise with zeros of both signs, subnormal numbers and limits among it.
fn noise(r: &mut Random, n: usize) -> Vec<f32> {
    let few = [0.0, -0.0, 1.4e-45, -1.4e-45, 64.0, -64.0, 1.0e-38, -1.0e-38];
    (0..n).map(|_| if r.once_in(4) { r.pick(&few) } else { r.within(5.0) as f32 }).collect()
}

/// Each length off by one and by two, and every value at its limits, of a stretch that is accepted and in which the reply of
/// the worked tape begins.
fn limits(t: &mut Tally, wanted: &dyn Fn(usize) -> bool) {
    let mut base = make::worked();
    base.settings.nanoseconds = make::nanoseconds(150) as u32;
    base.noise.truncate(300);
    let d = base.draws[0].clone();
    let numbers = base.noise.len();
    for (what, n) in [("empty", 0), ("1", 1), ("odd", numbers - 1), ("2 less", numbers - 2), ("2 more", numbers + 2)] {
        let mut l = Lent::of(&base, &d);
        l.output = n;
        one(t, &format!("output {what}"), &l);
        let mut l = Lent::of(&base, &d);
        l.noise.resize(n, f32::NAN);
        one(t, &format!("noise {what}"), &l);
        l.settings[12..20].copy_from_slice(&f64::NAN.to_le_bytes());
        one(t, &format!("noise {what}, a rate at fault"), &l);
        l.settings[12..20].copy_from_slice(&1f64.to_le_bytes());
        l.settings[SETTINGS_BYTES - 5..SETTINGS_BYTES - 1].copy_from_slice(&f32::NAN.to_le_bytes());
        one(t, &format!("noise {what}, the trigger level at fault"), &l);
        l.output = 1;
        one(t, &format!("noise {what}, odd output"), &l);
        for n in make::NO_SETTINGS.into_iter().chain([OTHER]) {
            l.settings[SETTINGS_BYTES - 1] = n;
            one(t, &format!("noise {what}, odd output, {n} samples per pulse"), &l);
        }
    }
    for n in [0, 1, 64, 66, 130] {
        let mut l = Lent::of(&base, &d);
        l.draw.resize(n, 0);
        one(t, &format!("draw of {n} bytes"), &l);
    }
    for n in [0, 1, SETTINGS_BYTES - 1, SETTINGS_BYTES + 1] {
        let mut l = Lent::of(&base, &d);
        l.settings.resize(n, 0);
        one(t, &format!("settings of {n} bytes"), &l);
    }
    let long = [
        (0, 1_000_000_000), (1 << 55, 0), (1 << 54, 0), (u64::MAX, u32::MAX), (562_949_953, 421_312_125), (0, 124), (0, 125),
        (281_474_976, 710_656_063), (0, 62), (0, 63),
    ];
    for (seconds, nanoseconds) in long {
        for output in [0, 1, 2] {
            for values in [0, 1, 2] {
                let mut l = Lent::of(&base, &d);
                (l.output, l.noise) = (output, vec![0.5; values]);
                l.settings[..8].copy_from_slice(&u64::to_le_bytes(seconds));
                l.settings[8..12].copy_from_slice(&u32::to_le_bytes(nanoseconds));
                one(t, &format!("{seconds} s {nanoseconds} ns, output {output}, noise {values}"), &l);
            }
        }
    }
    for damaged in damage::some(&base, wanted) {
        let Some(tape) = damaged.tape else { continue };
        let Some(d) = tape.draws.first() else { continue };
        let mut l = Lent::of(&base, d);
        (l.settings, l.noise) = (tape.settings.to_bytes(), tape.noise.clone());
        let mode_s = tape.taps.len().min(MODE_S_TAPS);
        (l.taps_s, l.taps_ac) = (tape.taps[..mode_s].to_vec(), tape.taps[mode_s..].to_vec());
        one(t, &damaged.what, &l);
    }
}

pub fn compare(t: &mut Tally, r: &mut Random, tapes: u64, wanted: &dyn Fn(usize) -> bool) {
    limits(t, wanted);
    for index in 0..tapes {
        let (tape, d) = random(r);
        let mut l = Lent::of(&tape, &d);
        if r.once_in(16) && !l.noise.is_empty() {
            let at = r.below(l.noise.len());
            l.noise[at] = r.pick(&[f32::NAN, f32::INFINITY, 64.00001, -65.0]);
        }
        one(t, &format!("single {index}"), &l);
    }
}
