//! What is compared with what, tape by tape.

use crate::bench::{Bench, RIGHT_LENGTHS};
use crate::calls;
use crate::damage;
use crate::judge;
use crate::make;
use crate::ours::{self, Ours};
use crate::program::{self, Outcome};
use crate::random::Random;
use crate::rules;
use crate::tally::{Tally, bytes_of, first_difference};
use crate::tape::*;
use reference::mode_ac::ModeACReply;
use reference::mode_s::ModeSMessage;
use reference::simulation::SSRReply;

/// The worked tape gives its text (SPECIFICATION 11.3).
pub fn worked(tally: &mut Tally, ours: &Ours) {
    let bytes = make::worked().to_bytes();
    let text = match SPP {
        4 => "first type count message\n100 2 536 20000000000000\n151 6 189 0e00\nsamples 8000\n",
        _ => "first type count message\n100 2 1072 20000000000000\n150 6 379 0e00\nsamples 16000\n",
    };
    let got = program::text(&program::outcome(&bytes));
    let wrong = (got != text).then(|| format!("the specification has {text:?}, the reference {got:?}"));
    tally.compare("worked tape, reference", "worked", &bytes, wrong);
    text_of_ours(tally, ours, "worked", &bytes, text);
}

/// The bench checks (SPECIFICATION 12) that the reference can answer, or the numbers at 8 samples per pulse that go with them;
/// the last one through the tape program too.
pub fn bench_lines(tally: &mut Tally, ours: &Ours) {
    use reference::simulation::pulse_shape::required_samples_for_apply;
    let required = [0, 43, 52, 128, 240].map(required_samples_for_apply);
    let lengths = messages().map(|m| reference::simulation::message_num_samples(&m));
    let parity = reference::mode_s::CRC24.checksum(b"123456789");
    let samples = |ns: u32| reference::simulation::duration_as_samples(std::time::Duration::new(0, ns));
    let (of_pulses, of_messages, at, starts) = match SPP {
        4 => ([0, 218, 258, 596, 1094], [960, 512, 166, 201], [(124, 0), (125, 1)], [6905, 6906]),
        _ => ([0, 436, 516, 1192, 2187], [1920, 1024, 333, 402], [(62, 0), (63, 1)], [13_812, 13_813]),
    };
    let lines = [
        ("required samples", required == of_pulses),
        ("samples of a message", lengths == of_messages),
        ("parity of 123456789", parity == 0x054268),
        ("samples of nanoseconds", at.iter().all(|&(ns, n)| samples(ns) == n)),
        ("the last start of a millisecond", last_start(starts[0]) == 1 && last_start(starts[1]) == 0),
        ("the numbers of the samples per pulse", numbers_are_the_references()),
    ];
    for (what, right) in lines {
        tally.compare(
            "bench checks of the specification",
            what,
            &[],
            (!right).then(|| what.to_string()),
        );
    }
    for start in starts {
        let tape = make::one_reply_at(start);
        text(tally, ours, &format!("start {start} of a millisecond"), &tape.to_bytes());
    }
}

/// A long reply, a short one, Mode A/C, and Mode A/C with SPI.
fn messages() -> [SSRReply; 4] {
    let mode_ac = |spi| SSRReply::ModeAC(ModeACReply::new(0, spi).unwrap());
    [
        SSRReply::ModeS(ModeSMessage::Long([0; 14])),
        SSRReply::ModeS(ModeSMessage::Short([0; 7])),
        mode_ac(false),
        mode_ac(true),
    ]
}

/// The specification's numbers at these samples per pulse are those that the reference's own expressions give.
fn numbers_are_the_references() -> bool {
    use reference::constants::dsp::SAMPLE_RATE_USIZE;
    use reference::simulation::pulse_shape::{NUM_BRANCHES, TAPS_PER_BRANCH, required_samples_for_apply};
    let n = HERE;
    let pulses = [n.mode_s_taps, n.mode_ac_taps].map(|taps| n.prototype - taps + 1);
    let wanted = match SPP {
        4 => [307, 278],
        _ => [614, 556],
    };
    n.rate == SAMPLE_RATE_USIZE as u64
        && n.prototype == NUM_BRANCHES * TAPS_PER_BRANCH
        && n.longest_reply == required_samples_for_apply(240)
        && n.working_memory == 2 * (n.longest_reply + n.held_back)
        && pulses == wanted
}

/// What was found about the Rust still holds.
pub fn findings(tally: &mut Tally) {
    for (what, holds) in crate::findings::ALL {
        let wrong = (!holds()).then(|| "no longer so".to_string());
        tally.compare("findings about the Rust", what, &[], wrong);
    }
}

/// How many records a run of a millisecond has with one reply at that start.
fn last_start(start: u64) -> usize {
    judge::run(&make::one_reply_at(start)).map_or(99, |r| r.records.len() / RECORD_BYTES)
}

/// The sine steps lie within 2^-23 of the original `sin_cos`.
pub fn sines(tally: &mut Tally, r: &mut Random) {
    use std::f64::consts::PI;
    let edges = [1.5, 0.5, -0.5, -1.5, 2.0, -2.0, 0.0].map(|k| k * (PI / 2.0));
    let near = edges
        .iter()
        .flat_map(|e| [*e, e.next_up(), e.next_down()])
        .filter(|p| p.abs() <= PI);
    let some: Vec<f64> = (0..100_000).map(|_| r.within(PI)).collect();
    for p in near.chain(some) {
        let (a, b) = (lent::sin_cos_by_steps(p), p.sin_cos());
        let far = (a.0 - b.0).abs().max((a.1 - b.1).abs());
        let wrong = !(far <= 1.0 / 8_388_608.0);
        tally.compare(
            "sine steps within 2^-23",
            &format!("{p:e}"),
            &[],
            wrong.then(|| format!("{a:?} and {b:?}")),
        );
    }
}

/// Every damaged form of a tape that is wanted.
pub fn damaged(tally: &mut Tally, ours: &Ours, base: &Tape, seed: &str, wanted: &dyn Fn(usize) -> bool) {
    for d in damage::some(base, wanted) {
        text(tally, ours, &format!("{seed}: {}", d.what), &d.bytes);
    }
}

/// One random tape: whole, now and then damaged, and cut into calls.
pub fn tape(tally: &mut Tally, ours: &Ours, r: &mut Random, seed: &str) {
    let tape = make::tape(r);
    let bytes = tape.to_bytes();
    settings(tally, r, seed);
    if let Some(outcome) = text(tally, ours, seed, &bytes) {
        if let Outcome::Run(run) = &outcome {
            plain(tally, seed, &tape, &bytes, run);
        }
    }
    let damages = damage::count(&tape);
    let chosen = [r.below(damages), r.below(damages), r.below(damages)];
    for d in damage::some(&tape, &|k| chosen.contains(&k)) {
        text(tally, ours, &format!("{seed}: {}", d.what), &d.bytes);
    }
    let cut = calls::random_cuts(r, &tape);
    calls_of_ours(tally, ours, seed, &cut.list);
    cuts(tally, seed, &tape, &cut);
    if r.once_in(8) {
        calls_of_ours(tally, ours, seed, &calls::random_opening(r, &tape));
    }
}

/// The text of the tape program; a stop of the reference that the specification does not name is a difference.
fn text(tally: &mut Tally, ours: &Ours, seed: &str, bytes: &[u8]) -> Option<Outcome> {
    let outcome = program::outcome(bytes);
    if let Outcome::Surprise(why) = &outcome {
        tally.compare("tapes through the reference", seed, bytes, Some(why.clone()));
        return None;
    }
    tally.compare("tapes through the reference", seed, bytes, None);
    match &outcome {
        Outcome::Run(run) => {
            tally.see("tape: accepted");
            reached(tally, &run.records);
        }
        Outcome::Refused(r) => tally.see(&format!("tape: refused {}", r.number)),
        Outcome::Surprise(_) => {}
    }
    text_of_ours(tally, ours, seed, bytes, &program::text(&outcome));
    Some(outcome)
}

/// Counts the types of the replies, and how far counts and falls of the first sample reach.
fn reached(tally: &mut Tally, records: &[u8]) {
    let mut highest = 0;
    for r in records.chunks(RECORD_BYTES) {
        tally.see(&format!("reply of type {}", r[48]));
        let first = u64::from_le_bytes(r[40..48].try_into().unwrap());
        tally.range("fall of a first sample", first.max(highest) - first);
        highest = highest.max(first);
        let name = match (r[51], r[53] & 0x10) {
            (14, _) => "count of a long reply",
            (7, _) => "count of a short reply",
            (_, 0) => "count of a Mode A/C reply",
            _ => "count of a Mode A/C reply with SPI",
        };
        tally.range(name, u64::from(u16::from_le_bytes([r[49], r[50]])));
    }
}

fn text_of_ours(tally: &mut Tally, ours: &Ours, seed: &str, bytes: &[u8], text: &str) {
    let Some(program) = &ours.tape else { return };
    let wrong = match ours::answer(program, bytes) {
        Err(why) => Some(why),
        Ok(got) if got == text.as_bytes() => None,
        Ok(got) => Some(format!(
            "the reference has {text:?}, ours {:?}",
            String::from_utf8_lossy(&got)
        )),
    };
    tally.compare("text of the tape program", seed, bytes, wrong);
}

fn calls_of_ours(tally: &mut Tally, ours: &Ours, seed: &str, list: &calls::List) {
    list.seen.iter().for_each(|what| tally.see(what));
    let Some(program) = &ours.calls else { return };
    let wrong = match ours::answer(program, &list.input) {
        Err(why) => Some(why),
        Ok(got) => first_difference("answers", &list.expected, &got),
    };
    tally.compare("lists of calls", seed, &list.input, wrong);
}

/// The plain bench, given everything in one call, writes what the reference writes.
fn plain(tally: &mut Tally, seed: &str, tape: &Tape, bytes: &[u8], run: &judge::Run) {
    let (mode_s, mode_ac) = tape.taps.split_at(MODE_S_TAPS);
    let mut bench = Bench::open(&tape.settings.to_bytes(), mode_s, mode_ac, RIGHT_LENGTHS)
        .expect("the tape was accepted");
    let ran = bench
        .call(&calls::lend_all(&tape.draws, &tape.noise, run.samples.len() / 2))
        .expect("the tape was accepted");
    let samples = first_difference("samples", &bytes_of(&run.samples), &bytes_of(&ran.output));
    tally.compare("whole runs, reference and bench", seed, bytes, samples);
    let records = first_difference("records", &run.records, &ran.records);
    tally.compare("whole runs, reference and bench", seed, bytes, records);
}

/// What the bench wrote in all, cut by cut, is what the reference writes of the draws as they were lent in the end.
fn cuts(tally: &mut Tally, seed: &str, tape: &Tape, cut: &calls::Cut) {
    if !cut.list.done() {
        return;
    }
    let lent = Tape {
        draws: cut.draws.clone(),
        ..tape.clone()
    };
    let wrong = match judge::run(&lent) {
        Err(why) => Some(format!("the reference stops: {why:?}")),
        Ok(run) => first_difference("samples", &bytes_of(&run.samples), &bytes_of(&cut.samples))
            .or_else(|| first_difference("records", &run.records, &cut.records)),
    };
    tally.compare("cut runs, reference and bench", seed, &cut.list.input, wrong);
}

/// The rules' refusals 2 to 4, at this program's samples per pulse, are the reference's errors.
fn settings(tally: &mut Tally, r: &mut Random, seed: &str) {
    for _ in 0..4 {
        let mut s = make::settings(r, 1);
        let wild = r.any_f64();
        match r.below(5) {
            0 => s.rates[r.below(7)] = wild,
            1 => s.carrier.first = wild,
            2 => s.carrier.second = wild,
            3 => s.clock.first = wild,
            _ => s.phase.first = wild,
        }
        let ours = rules::settings(&s).is_err();
        let theirs = judge::distributions(&s).is_err() || rates_refused(&s);
        let wrong = (ours != theirs)
            .then(|| format!("refused by the rules: {ours}, by the reference: {theirs}, {s:?}"));
        tally.compare("settings, rules and reference", seed, &s.to_bytes(), wrong);
    }
}

/// The reference refuses the rates of a run without draws.
fn rates_refused(s: &Settings) -> bool {
    let mut t = make::worked();
    t.settings.rates = s.rates;
    t.draws.clear();
    matches!(judge::run(&t), Err(judge::Stopped::Error(_)))
}
