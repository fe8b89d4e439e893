//! The crates `distributions`, `message_config` and `reply_add`: what is accepted, what a draw becomes, starts and
//! phases; last, whole replies added into working memory.

use crate::parts::shape::{delays_of, prototypes_of};
use crate::random::Random;
use crate::tally::{Tally, pattern64, patterns};
use crate::tape::{Asked, Draw, Settings};
use crate::{judge, make};
use reference::math;
use reference::mode_s::ModeSMessage;
use reference::simulation::{MessageConfig, SSRReply, open};
use std::f64::consts::PI;

unsafe extern "C" {
    /// The first sample; the filter's clock error and clock phase, the carrier's rate and first phase.
    safe fn port_message(
        time: f64,
        offset: f64,
        phase: f64,
        error: f64,
        mode_ac: bool,
        delay_s: f64,
        delay_ac: f64,
        out: &mut [f64; 4],
    ) -> i64;
    /// What each draw becomes by the distribution of its kind that is asked for.
    safe fn port_drawn(
        kind: u8,
        first: f64,
        second: f64,
        carrier: f64,
        phase: f64,
        clock: f64,
        out: &mut [f64; 3],
    );
    fn port_add_reply(
        mode_s: *const f32,
        mode_s_length: usize,
        mode_ac: *const f32,
        mode_ac_length: usize,
        time: f64,
        offset: f64,
        phase: f64,
        error: f64,
        kind: u8,
        bytes: &[u8; 14],
        amplitude: f32,
        delay_s: f64,
        delay_ac: f64,
        memory: *mut f32,
        memory_length: usize,
        place: usize,
    ) -> u16;
}

/// Samples of the ring.
const RING: usize = 1126;

pub fn compare(t: &mut Tally, r: &mut Random, count: u64) {
    let worked = make::worked();
    for _ in 0..count / 4 {
        asked(t, r, &worked.settings, worked.draws[0]);
        carrier(t, r);
    }
    for _ in 0..(count / 1000).max(1) {
        let s = make::settings(r, 6000);
        let taps = make::taps(r, s.trigger_level);
        lent::lend_taps(&taps, s.trigger_level);
        let all = prototypes_of(&taps);
        let delays = delays_of(&all[0], &all[1], s.trigger_level);
        let d = judge::distributions(&s).expect("accepted settings");
        let mut time = 0.0;
        for draw in make::draws(r, &s, 6000).iter().take(5) {
            time += draw.gap;
            let mut m = judge::config(draw, time, d);
            drawn(t, &s, draw, &m);
            starts(t, &m, delays);
            // Beyond the longest run the start saturates, and the Rust panics.
            if time <= 2f64.powi(52) {
                reply(t, r, &m, draw, &all, delays);
            }
            for _ in 0..10 {
                let (within, any) = (r.within(0.1), r.any_f64());
                m.timestamp_samples = r.any_f64();
                m.symbol_clock_error = r.pick(&[within, 0.1, -0.1, any]);
                starts(t, &m, delays);
            }
        }
    }
}

/// A distribution of any kind with any numbers: refused, a NaN, or what the draw becomes.
fn asked(t: &mut Tally, r: &mut Random, worked: &Settings, mut d: Draw) {
    let near = |r: &mut Random| match r.below(4) {
        0 => r.any_f64(),
        1 => {
            let x = r.pick(&[4e6, 0.1, 0.0, 5e-324, f64::MAX]);
            let y = r.pick(&[x, x.next_up(), x.next_down()]);
            if r.once_in(2) { y } else { -y }
        }
        2 => r.within(0.1),
        _ => r.within(5e6),
    };
    let a = Asked {
        kind: r.pick(&[0, 0, 1, 1, 2, 255]),
        first: near(r),
        second: near(r),
    };
    let plain = Asked {
        kind: 0,
        first: 0.0,
        second: 0.0,
    };
    let some = r.normal();
    d.carrier = r.pick(&[some, some, 0.0, -0.0, 1e300, -1e300, 5e-324]);
    (d.phase, d.clock) = (r.within(PI), r.within(0.1));
    for place in 0..3 {
        let mut s = worked.clone();
        (s.carrier, s.phase, s.clock) = (plain, plain, plain);
        *[&mut s.carrier, &mut s.phase, &mut s.clock][place] = a;
        let expected = match judge::distributions(&s) {
            // The Rust has no third kind.
            _ if a.kind > 1 => f64::NAN,
            Err(_) => f64::NAN,
            Ok(all) => {
                let m = judge::config(&d, 0.0, all);
                [m.carrier_frequency_offset, m.carrier_phase, m.symbol_clock_error][place]
            }
        };
        t.see(if expected.is_nan() {
            "distribution refused"
        } else {
            "distribution accepted"
        });
        let (name, ours) = ours_drawn(place, a, &d);
        t.alike(name, (a, d), pattern64(expected), pattern64(ours));
    }
}

fn ours_drawn(place: usize, a: Asked, d: &Draw) -> (&'static str, f64) {
    let mut ours = [0.0; 3];
    port_drawn(
        a.kind, a.first, a.second, d.carrier, d.phase, d.clock, &mut ours,
    );
    (["carrier offset", "carrier phase", "clock error"][place], ours[place])
}

/// What the draws of accepted tapes become.
fn drawn(t: &mut Tally, s: &Settings, d: &Draw, m: &MessageConfig) {
    let expected = [m.carrier_frequency_offset, m.carrier_phase, m.symbol_clock_error];
    for (place, a) in [s.carrier, s.phase, s.clock].into_iter().enumerate() {
        let (name, ours) = ours_drawn(place, a, d);
        t.alike(name, (a, d), pattern64(expected[place]), pattern64(ours));
    }
}

/// The two lines of `samples` on the carrier, which are not functions of their own in the Rust, at any numbers whatever.
fn carrier(t: &mut Tally, r: &mut Random) {
    let (offset, phase, any) = (r.any_f64(), r.any_f64(), r.any_f64());
    let (near, far) = (100_000.0 * r.unit(), r.within(1e18));
    let time = r.pick(&[any, near, far]);
    let delays = [r.within(40.0), r.any_f64()];
    let (error, mode_ac) = (r.within(0.1), r.once_in(2));
    let (first, ours) = ours_of(time, offset, phase, error, mode_ac, delays);
    let delay = delays[usize::from(mode_ac)];
    let expected = (time - delay / (1.0 + error)).ceil() as i64;
    t.alike("first sample of any message", (time, delay, error), expected, first);
    carrier_of(t, (time, offset, phase, expected), ours);
}

/// The carrier of a message of a time, an offset, a phase and a first sample.
fn carrier_of(t: &mut Tally, (time, offset, phase, first): (f64, f64, f64, i64), ours: [f64; 4]) {
    let rate = 2.0 * PI * offset / 8_000_000.0;
    t.same("carrier_rate", offset, pattern64(rate), pattern64(ours[2]));
    let expected = math::phase_wrap_f64(phase - (time - first as f64) * rate);
    t.alike(
        "first_phase",
        (phase, time, first, rate),
        pattern64(expected),
        pattern64(ours[3]),
    );
}

fn ours_of(time: f64, offset: f64, phase: f64, error: f64, mode_ac: bool, delays: [f64; 2]) -> (i64, [f64; 4]) {
    let mut ours = [0.0; 4];
    let first = port_message(
        time, offset, phase, error, mode_ac, delays[0], delays[1], &mut ours,
    );
    (first, ours)
}

fn mode_ac(m: &MessageConfig) -> bool {
    matches!(m.message, SSRReply::ModeAC(_))
}

fn starts(t: &mut Tally, m: &MessageConfig, delays: [f64; 2]) {
    t.alike(
        "group_delay of a message",
        m,
        pattern64(open::group_delay(m)),
        pattern64(delays[usize::from(mode_ac(m))]),
    );
    let (time, e) = (m.timestamp_samples, m.symbol_clock_error);
    let (offset, phase) = (m.carrier_frequency_offset, m.carrier_phase);
    let (first, ours) = ours_of(time, offset, phase, e, mode_ac(m), delays);
    let expected = open::first_sample_index(m);
    t.alike("first_sample_index", m, expected, first);
    t.alike(
        "clock_error_for_filterbank",
        m,
        pattern64(open::clock_error_for_filterbank(m)),
        pattern64(ours[0]),
    );
    t.alike(
        "clock_phase",
        m,
        pattern64(open::clock_phase(m)),
        pattern64(ours[1]),
    );
    carrier_of(t, (time, offset, phase, expected), ours);
}

/// A message's kind, as a number, and its bytes.
fn crossed(m: &SSRReply) -> (u8, [u8; 14]) {
    let mut bytes = [0; 14];
    let kind = match m {
        SSRReply::ModeS(ModeSMessage::Short(b)) => {
            bytes[..7].copy_from_slice(b);
            0
        }
        SSRReply::ModeS(ModeSMessage::Long(b)) => {
            bytes = *b;
            1
        }
        SSRReply::ModeAC(x) => {
            bytes[..2].copy_from_slice(&(x.data() | u16::from(x.spi()) << 12).to_le_bytes());
            2
        }
    };
    (kind, bytes)
}

/// A reply added into working memory from any place on, with what the memory held before.
fn reply(t: &mut Tally, r: &mut Random, m: &MessageConfig, d: &Draw, all: &[[f32; 1792]; 2], delays: [f64; 2]) {
    let samples = open::samples(m);
    let place = r.below(RING);
    let before: Vec<f32> = (0..2 * RING).map(|_| r.within(100.0) as f32).collect();
    let mut expected = before.clone();
    for (k, z) in samples.iter().enumerate() {
        let q = (place + k) % RING;
        expected[2 * q] += z.re;
        expected[2 * q + 1] += z.im;
    }
    let mut ours = before;
    let (kind, bytes) = crossed(&m.message);
    let count = unsafe {
        port_add_reply(
            all[0].as_ptr(),
            all[0].len(),
            all[1].as_ptr(),
            all[1].len(),
            m.timestamp_samples,
            m.carrier_frequency_offset,
            m.carrier_phase,
            m.symbol_clock_error,
            kind,
            &bytes,
            d.amplitude,
            delays[0],
            delays[1],
            ours.as_mut_ptr(),
            ours.len(),
            place,
        )
    };
    t.alike("replies added into memory", (m, d.amplitude, place), patterns(&expected), patterns(&ours));
    t.alike("counts of replies", m, samples.len(), usize::from(count));
}
