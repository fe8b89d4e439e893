//! What a booking will use, against a second walk over draws (the rules of 3.1, the Rust's starts), against the counts of
//! runs that the plain bench finished, and in parts against the whole.

use super::port::more1090_generator::{BookingResult, booking_part_result, booking_result};
use crate::bench::{Bench, Call, RIGHT_LENGTHS, Stop};
use crate::random::Random;
use crate::rules::{self, Refusal, refusal};
use crate::tally::Tally;
use crate::tape::*;
use crate::{damage, judge, make};
use reference::simulation::open;

/// The numbers of an answer: the time by its bits, so that equal answers are equal.
#[derive(Debug, Clone, Copy, PartialEq, Eq, Default)]
struct Answer {
    samples: u64,
    noise: u64,
    records: u64,
    taken: u64,
    ended: u64,
    draw: u64,
    time: u64,
    refusal: u64,
    value: u64,
    field: u64,
}

/// What is asked: settings, filters and draws in bytes.
#[derive(Debug, Clone)]
struct Asked {
    settings: Vec<u8>,
    taps_s: Vec<f32>,
    taps_ac: Vec<f32>,
    draws: Vec<u8>,
}

impl Asked {
    fn of(tape: &Tape) -> Asked {
        let (taps_s, taps_ac) = tape.taps.split_at(MODE_S_TAPS.min(tape.taps.len()));
        Asked {
            settings: tape.settings.to_bytes(),
            taps_s: taps_s.to_vec(),
            taps_ac: taps_ac.to_vec(),
            draws: tape.draws.iter().flat_map(draw_to_bytes).collect(),
        }
    }

    fn ours(&self) -> Answer {
        flat(booking_result(&self.settings, &self.taps_s, &self.taps_ac, &self.draws))
    }

    fn part(&self, time: f64, draws: &[u8]) -> Answer {
        flat(booking_part_result(time, &self.settings, &self.taps_s, &self.taps_ac, draws))
    }

    /// The second walk.
    fn expected(&self, time: f64) -> Answer {
        self.walked(time).unwrap_or_else(|r| Answer {
            refusal: r.number,
            value: r.values[0].unwrap_or(0),
            field: r.values[1].unwrap_or(0),
            ..Answer::default()
        })
    }

    fn walked(&self, mut time: f64) -> Result<Answer, Refusal> {
        if self.settings.len() != SETTINGS_BYTES {
            return Err(refusal(9));
        }
        let s = Settings::from_bytes(&self.settings);
        rules::samples_per_pulse(&s)?;
        if self.draws.len() % DRAW_BYTES != 0 {
            return Err(refusal(9));
        }
        rules::settings(&s)?;
        rules::taps(&s, &self.taps_s, &self.taps_ac)?;
        let taps = [&self.taps_s[..], &self.taps_ac[..]].concat();
        let [a, b] = judge::prototypes(&taps, s.trigger_level);
        rules::prototypes([&a, &b], s.trigger_level)?;
        let draws: Vec<Draw> = self.draws.chunks(DRAW_BYTES).map(draw_from_bytes).collect();
        rules::draws(&s, &draws)?;
        let distributions = judge::distributions(&s).expect("the reference takes the distributions");
        let total = u64::try_from(s.samples()).unwrap();
        let mut answer = Answer { samples: total, noise: 2 * total, ..Answer::default() };
        for d in &draws {
            time += d.gap;
            let start = open::first_sample_index(&judge::config(d, time, distributions));
            answer.taken += 1;
            if start >= 0 && start as u64 >= total.saturating_sub(HERE.longest_reply as u64) {
                (answer.ended, answer.draw) = (1, answer.taken - 1);
                return Ok(answer);
            }
            answer.records += u64::from(start >= 0);
        }
        answer.time = time.to_bits();
        Ok(answer)
    }
}

fn flat(b: BookingResult) -> Answer {
    let BookingResult { samples, noise, records, draws_taken: taken, ended, draw, time, refusal, value, field } = b;
    Answer { samples, noise, records, taken, ended, draw, time: time.to_bits(), refusal, value, field }
}

pub fn compare(t: &mut Tally, r: &mut Random, tapes: u64, wanted: &dyn Fn(usize) -> bool) {
    fixed(t);
    for base in [make::worked(), make::worked_drawn()] {
        for d in damage::some(&base, wanted) {
            if let Some(tape) = &d.tape {
                asked(t, "bookings at each limit", &d.what, &Asked::of(tape));
            }
        }
        lengths(t, &base);
    }
    for start in [make::LAST_START, make::LAST_START + 1] {
        asked(t, "bookings at each limit", &format!("start {start} of a millisecond"), &Asked::of(&make::one_reply_at(start)));
    }
    for index in 0..tapes {
        let tape = make::tape(r);
        let seed = format!("tape {index}");
        let a = Asked::of(&tape);
        asked(t, "bookings", &seed, &a);
        any_time(t, r, &seed, &a);
        in_parts(t, r, &seed, &a);
        finished(t, r, &seed, &tape);
    }
}

fn asked(t: &mut Tally, name: &'static str, seed: &str, a: &Asked) {
    let ours = a.ours();
    t.see(&match ours {
        Answer { refusal: 0, ended: 1, .. } if (ours.taken as usize) < a.draws.len() / DRAW_BYTES => "booking: ended, with draws behind".into(),
        Answer { refusal: 0, ended: 1, .. } => "booking: ended by the last draw".into(),
        Answer { refusal: 0, .. } => "booking: draws ran out".into(),
        _ => format!("booking: refused {}", ours.refusal),
    });
    if ours.refusal == 0 && ours.records + ours.ended < ours.taken {
        t.see("booking: draws ignored");
    }
    t.alike(name, seed, a.expected(0.0), ours);
}

/// From any time, also one that no draws lead to.
fn any_time(t: &mut Tally, r: &mut Random, seed: &str, a: &Asked) {
    let time = if r.once_in(2) { r.any_f64() } else { r.unit() * 10_000.0 };
    let canonical = |mut x: Answer| {
        // One NaN stands for all.
        if f64::from_bits(x.time).is_nan() {
            x.time = f64::NAN.to_bits();
        }
        x
    };
    t.alike("bookings from any time", (seed, time), canonical(a.expected(time)), canonical(a.part(time, &a.draws)));
}

/// Cut at any draws, each part asked from the time at which the one before ran out, and the figures added.
fn in_parts(t: &mut Tally, r: &mut Random, seed: &str, a: &Asked) {
    let whole = a.ours();
    if whole.refusal != 0 {
        return;
    }
    let (mut sum, mut rest) = (Answer::default(), &a.draws[..]);
    loop {
        let draws = r.below(rest.len() / DRAW_BYTES + 1).min(r.between(0, 9));
        let (part, behind) = rest.split_at(draws * DRAW_BYTES);
        let p = a.part(f64::from_bits(sum.time), part);
        t.alike("parts have the run's samples", seed, (whole.samples, whole.noise, 0), (p.samples, p.noise, p.refusal));
        let taken = sum.taken;
        sum = Answer { records: sum.records + p.records, taken: taken + p.taken, ..p };
        if p.ended == 1 {
            sum.draw += taken;
            break;
        }
        if behind.is_empty() {
            break;
        }
        rest = behind;
    }
    t.alike("bookings in parts", seed, whole, sum);
}

/// A run that the plain bench finishes, in calls of any size, has the figures of the booking of its draws, whatever draws in
/// range are put after those taken.
fn finished(t: &mut Tally, r: &mut Random, seed: &str, tape: &Tape) {
    let mut a = Asked::of(tape);
    let Ok(mut bench) = Bench::open(&a.settings, &a.taps_s, &a.taps_ac, RIGHT_LENGTHS) else { return };
    let samples = r.pick(&[64, 1000, 65_536]);
    let (mut taken, mut used, mut written, mut records) = (0, 0, 0, 0);
    loop {
        let call = Call {
            lengths: RIGHT_LENGTHS,
            draws: a.draws[taken * DRAW_BYTES..].to_vec(),
            noise: tape.noise[used..].iter().copied().take(2 * samples).collect(),
            output: 2 * samples,
            records: RECORD_BYTES * 3,
        };
        let Ok(ran) = bench.call(&call) else { return };
        let n = ran.counts;
        (taken, used, written, records) = (taken + n.taken, used + n.noise, written + n.samples, records + n.records);
        if n.stop == Stop::Done {
            break;
        }
        if n.taken + n.samples + n.records == 0 {
            return;
        }
    }
    let figures = (written as u64, used as u64, records as u64, taken as u64, 1, taken as u64 - 1);
    a.draws.truncate(taken * DRAW_BYTES);
    for more in 0..3 {
        let ours = a.ours();
        t.see("booking: of a finished run");
        t.alike("bookings of finished runs", (seed, more), figures, (ours.samples, ours.noise, ours.records, ours.taken, ours.ended, ours.draw));
        let again = tape.draws[r.below(tape.draws.len())];
        a.draws.extend(draw_to_bytes(&again));
    }
}

/// Settings, taps and draws of other lengths.
fn lengths(t: &mut Tally, base: &Tape) {
    let right = Asked::of(base);
    for n in [0, 1, 119, 123, 125] {
        let mut a = right.clone();
        a.settings.resize(n, 0);
        asked(t, "bookings with other lengths", &format!("settings of {n} bytes"), &a);
    }
    for n in [0, 1, 64, 65, 66, 129, 130, 131, 194, 196] {
        let mut a = right.clone();
        a.draws.resize(n, 0);
        asked(t, "bookings with other lengths", &format!("draws of {n} bytes"), &a);
        // 9 comes before 1 and 5.
        a.settings[8..12].copy_from_slice(&1_000_000_000u32.to_le_bytes());
        a.taps_s.pop();
        asked(t, "bookings with other lengths", &format!("draws of {n} bytes, a nanosecond too many"), &a);
        // 15 comes before all of them.
        a.settings[SETTINGS_BYTES - 1] = 5;
        asked(t, "bookings with other lengths", &format!("draws of {n} bytes, 5 samples per pulse"), &a);
    }
    let (m, n) = (MODE_S_TAPS, MODE_AC_TAPS);
    let other = (THERE.mode_s_taps, THERE.mode_ac_taps);
    for (s, ac) in [(0, 0), (m - 1, n), (m + 1, n), (m, n - 1), (m, n + 1), (n, m), other] {
        let mut a = right.clone();
        a.taps_s.resize(s, 0.0);
        a.taps_ac.resize(ac, 0.0);
        asked(t, "bookings with other lengths", &format!("{s} and {ac} taps"), &a);
    }
}

/// Answers worked out by hand.
fn fixed(t: &mut Tally) {
    let worked = make::worked();
    let mut hold = |what: &str, tape: &Tape, expected: Answer| {
        t.alike("worked bookings", what, expected, Asked::of(tape).ours());
        asked(t, "bookings at each limit", what, &Asked::of(tape));
    };
    let samples = make::WORKED_SAMPLES as u64;
    let booked = Answer { samples, noise: 2 * samples, records: 2, taken: 3, ended: 1, draw: 2, ..Answer::default() };
    hold("worked", &worked, booked);
    let mut tape = worked.clone();
    tape.draws.push(Draw { kind: 9, ..worked.draws[0] });
    hold("a fault behind the end", &tape, Answer { refusal: 7, value: 3, field: 1, ..Answer::default() });
    tape.draws[3].kind = 2;
    hold("a draw behind the end", &tape, booked);
    tape.draws.truncate(2);
    hold("draws ran out", &tape, Answer { records: 2, taken: 2, ended: 0, draw: 0, time: 150.5f64.to_bits(), ..booked });
    tape.settings.nanoseconds = 0;
    tape.draws.clear();
    hold("no samples, no draws", &tape, Answer::default());
    tape.draws = vec![Draw { gap: f64::MAX, ..worked.draws[0] }; 2];
    hold("infinite time", &tape, Answer { taken: 1, ended: 1, ..Answer::default() });
    let mut tape = worked.clone();
    tape.draws = vec![Draw { gap: 0.0, ..worked.draws[0] }, worked.draws[0], worked.draws[2]];
    // Taps that are late by some samples: the draw at time 0.0 would start before sample 0.
    tape.taps = [make::late(MODE_S_TAPS), make::late(MODE_AC_TAPS)].concat();
    hold("an ignored draw", &tape, Answer { records: 1, ..booked });
}
