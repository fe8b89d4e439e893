//! Where the Rust and the specification differ, or where the Rust surprises: each with the smallest input that shows it. If the
//! reference is ever renewed, a finding that no longer holds shows as a difference.

use crate::judge::{self, Rng, Stopped};
use crate::make::{self, MODE_AC_LIMIT};
use crate::tape::Tape;
use reference::math;
use reference::mode_s::ModeSMessage;
use reference::simulation::{MessageType, SSRReply, duration_as_samples};
use std::f64::consts::PI;
use std::panic::catch_unwind;
use std::time::Duration;

pub const ALL: [(&str, fn() -> bool); 10] = [
    ("the Rust fills bytes 1 to 3 of an all-call", all_call_bytes),
    (
        "smaller batches panic: starts 1102, 1096 with 1,100",
        small_batches,
    ),
    (
        "a Mode A/C clock error above the limit panics when samples are made",
        mode_ac_limit,
    ),
    (
        "such a draw that is ignored, or ends the run, does not panic",
        mode_ac_limit_unused,
    ),
    ("a prototype that does not cross 0.5 panics", no_crossing),
    ("the Rust takes noise, amplitudes and taps of any size", any_size),
    ("phase_wrap_f64 can give PI", wrap_gives_pi),
    ("a duration of 2^64 samples or more panics", duration_panics),
    ("Duration::new carries nanoseconds", duration_carries),
    (
        "an all-call with overlay 0 is classed as an acquisition squitter",
        overlay_of_0,
    ),
];

/// `random_all_call_reply` asks for three random bytes; the stand-in fills 0 there, as SPECIFICATION 7.3 has it. Here it is
/// called with the draw of an acquisition squitter, for which the stand-in fills the draw's bytes.
fn all_call_bytes() -> bool {
    let mut d = make::worked().draws[0];
    d.kind = 1;
    d.overlay = 1;
    d.bytes[1] = 0xab;
    lent::lend(&[d], &[]);
    lent::gap();
    reference::simulation::random_all_call_reply(&mut Rng {})[1] == 0xab
}

/// The worked tape, with draws of type 2 but for the kinds given, at those gaps, and an end.
fn with_gaps(draws: &[(u8, f64)]) -> Tape {
    let mut t = make::worked();
    let (first, last) = (t.draws[0], t.draws[2]);
    t.draws = draws
        .iter()
        .map(|&(kind, gap)| lent::Draw { kind, gap, ..first })
        .collect();
    t.draws.push(last);
    t
}

/// A Mode A/C reply at 1102, then at the same time a Mode S one whose filter is 6 samples late. A batch of 1,100 is
/// written before the second is drawn.
fn small_batches() -> bool {
    let mut t = with_gaps(&[(6, 1102.0), (2, 0.0)]);
    t.taps[0] = 0.0;
    t.taps[6 * 64] = 1.0;
    let run = judge::run_in_batches(&t, 1100);
    matches!(run, Err(Stopped::Panic(text)) if text.contains("before the beginning of the buffer"))
}

fn mode_ac_limit() -> bool {
    let mut t = with_gaps(&[(6, 100.0)]);
    t.settings.clock.first = MODE_AC_LIMIT;
    let inside = judge::run(&t).is_ok();
    t.settings.clock.first = MODE_AC_LIMIT.next_up();
    inside && matches!(judge::run(&t), Err(Stopped::Panic(_)))
}

fn mode_ac_limit_unused() -> bool {
    let mut t = with_gaps(&[(6, 1e6)]);
    t.settings.clock.first = MODE_AC_LIMIT.next_up();
    let ends = judge::run(&t).is_ok();
    let mut t = with_gaps(&[(6, 0.0)]);
    t.settings.clock.first = MODE_AC_LIMIT.next_up();
    // The crossing comes 128 entries late, so that the start is -2.
    let place = crate::tape::MODE_S_TAPS;
    t.taps[place] = 0.0;
    t.taps[place + 128] = 1.0;
    ends && judge::run(&t).is_ok()
}

fn no_crossing() -> bool {
    let mut t = make::worked();
    t.taps[0] = 0.5;
    matches!(judge::run(&t), Err(Stopped::Panic(_)))
}

fn any_size() -> bool {
    let mut t = make::worked();
    t.noise[0] = f32::NAN;
    t.taps[0] = 17.0;
    t.draws[0].amplitude = -f32::MAX;
    judge::run(&t).is_ok()
}

fn wrap_gives_pi() -> bool {
    catch_unwind(|| math::phase_wrap_f64((-PI).next_down()) == PI).unwrap_or(false)
}

fn duration_panics() -> bool {
    let panics = |s, ns| catch_unwind(|| duration_as_samples(Duration::new(s, ns))).is_err();
    let last = duration_as_samples(Duration::new(2_305_843_009_213, 693_951_999));
    last == u64::MAX && panics(2_305_843_009_213, 693_952_000) && panics(2_305_843_009_214, 0)
}

fn duration_carries() -> bool {
    duration_as_samples(Duration::new(0, 1_000_000_000)) == 8_000_000
}

/// The address 0 and II 0; with overlay 16, which names no interrogator, it is an all-call.
fn overlay_of_0() -> bool {
    let class = |last| {
        let bytes = [0x58, 0, 0, 0, 0xe0, 0xef, last];
        MessageType::from_message(&SSRReply::ModeS(ModeSMessage::Short(bytes)))
    };
    class(0x0d) == Some(MessageType::AcquisitionSquitter)
        && class(0x1d) == Some(MessageType::AllCallReply)
}
