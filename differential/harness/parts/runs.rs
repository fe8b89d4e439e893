//! The crate `more1090_generator`: whole runs against the reference, and lists of run calls against the plain bench, every
//! answer and every lent buffer whole, so that bytes which must stay unchanged are compared too.

use crate::bench::{Lengths, RIGHT_LENGTHS, Stop};
use crate::calls::{self, List, SETTINGS_LENGTHS};
use crate::damage;
use crate::parts::port::{self, Port};
use crate::random::Random;
use crate::tally::{Tally, bytes_of, first_difference};
use crate::tape::*;
use crate::{judge, make};

pub fn compare(t: &mut Tally, r: &mut Random, tapes: u64, wanted: &dyn Fn(usize) -> bool) {
    for base in [make::worked(), make::worked_drawn()] {
        for d in damage::some(&base, wanted) {
            if let Some(tape) = &d.tape {
                limits(t, &d.what, tape);
            }
        }
        for n in SETTINGS_LENGTHS {
            settings_of(t, n, &base);
        }
    }
    added(t);
    for start in [make::LAST_START, make::LAST_START + 1] {
        let tape = make::one_reply_at(start);
        whole(t, r, &format!("start {start} of a millisecond"), &tape);
    }
    held_back(t);
    for index in 0..tapes {
        let seed = format!("run {index}");
        let tape = make::tape(r);
        whole(t, r, &seed, &tape);
        let cut = calls::random_cuts(r, &tape);
        list(t, "lists of run calls", &seed, &cut.list);
        if r.once_in(8) {
            list(t, "openings", &seed, &calls::random_opening(r, &tape));
        }
    }
}

/// A list of calls, answer by answer.
fn list(t: &mut Tally, name: &'static str, seed: &str, l: &List) {
    l.seen.iter().for_each(|what| t.see(what));
    let wrong = first_difference("answers", &l.expected, &Port::answers(&l.input));
    t.compare(name, seed, &l.input, wrong);
}

/// A reply's whole count belongs to the call that takes its draw: the worked tape with a first gap of 20.0, its first draw
/// alone and no noise, and then the end draw and all noise.
fn added(t: &mut Tally) {
    let mut tape = make::worked();
    tape.draws[0].gap = 20.0;
    let (mode_s, mode_ac) = tape.taps.split_at(MODE_S_TAPS);
    let mut l = List::open(&tape.settings.to_bytes(), mode_s, mode_ac, RIGHT_LENGTHS);
    let mut counts = |draw: usize, noise: &[f32]| {
        let lent = calls::lend_all(&tape.draws[draw..=draw], noise, make::WORKED_SAMPLES);
        l.call(&lent).map(|ran| (ran.counts.taken, ran.counts.samples, ran.counts.added))
    };
    let found = [counts(0, &[]), counts(2, &tape.noise)];
    let right = found == [Ok((1, 0, 134 * u128::from(SPP))), Ok((1, make::WORKED_SAMPLES, 0))];
    let wrong = (!right).then(|| format!("taken, written and added: {found:?}"));
    t.compare("a reply's count and its call", "gap 20.0", &l.input, wrong);
    list(t, "a reply's count and its call", "gap 20.0", &l);
}

/// The samples before the start of a draw that has no room for its record: all but those held back, 32 or 64.
fn held_back(t: &mut Tally) {
    let tape = make::one_reply_at(100);
    let (mode_s, mode_ac) = tape.taps.split_at(MODE_S_TAPS);
    let mut l = List::open(&tape.settings.to_bytes(), mode_s, mode_ac, RIGHT_LENGTHS);
    let mut lent = calls::lend_all(&tape.draws, &tape.noise, make::WORKED_SAMPLES);
    lent.records = RECORD_BYTES - 1;
    let found = l.call(&lent).map(|ran| (ran.counts.samples, ran.counts.stop));
    let right = found == Ok((100 - 8 * usize::from(SPP), Stop::RecordsFull));
    let wrong = (!right).then(|| format!("written and stop: {found:?}"));
    t.compare("samples held back", "start 100", &l.input, wrong);
    list(t, "samples held back", "start 100", &l);
}

/// A value at a limit: opened, and all of it lent to one call.
fn limits(t: &mut Tally, what: &str, tape: &Tape) {
    let (mode_s, mode_ac) = tape.taps.split_at(MODE_S_TAPS);
    let mut l = List::open(&tape.settings.to_bytes(), mode_s, mode_ac, RIGHT_LENGTHS);
    if l.opened() {
        let room = tape.noise.len() / 2 + 1;
        let _ = l.call(&calls::lend_all(&tape.draws, &tape.noise, room));
    }
    list(t, "values at each limit", what, &l);
}

/// Openings with settings of n bytes: as they are, with refusals 1, 4 and 15 to be met in them, and with memory that is too short.
fn settings_of(t: &mut Tally, n: usize, tape: &Tape) {
    let (mode_s, mode_ac) = tape.taps.split_at(MODE_S_TAPS);
    let mut short = RIGHT_LENGTHS;
    short.memory -= 1;
    let spoilt: [(&str, fn(&mut Settings), Lengths); 5] = [
        ("settings", |_| {}, RIGHT_LENGTHS),
        ("nanoseconds", |s| s.nanoseconds = 1_000_000_000, RIGHT_LENGTHS),
        ("clock", |s| s.clock.kind = 2, RIGHT_LENGTHS),
        ("memory", |s| s.nanoseconds = 1_000_000_000, short),
        ("samples per pulse, memory", |s| s.samples_per_pulse = 5, short),
    ];
    for (what, spoil, lent) in spoilt {
        let mut s = tape.settings;
        spoil(&mut s);
        let mut bytes = s.to_bytes();
        bytes.resize(n, 0);
        let l = List::open(&bytes, mode_s, mode_ac, lent);
        list(t, "settings of each length", &format!("{what}, {n} bytes"), &l);
    }
}

/// Samples and records of a whole run, lent in parts of one size, are the reference's, and the reply samples that the answers
/// count are those that its records count; and so where it is stored and taken up
/// again between calls.
fn whole(t: &mut Tally, r: &mut Random, seed: &str, tape: &Tape) {
    let Ok(run) = judge::run(tape) else { return };
    let samples = r.pick(&[1, 64, 1000, 4096, 65_536]);
    let lines = run.records.chunks(RECORD_BYTES);
    let counts: u128 = lines.map(|b| u128::from(u16::from_le_bytes([b[49], b[50]]))).sum();
    let mut held = |name: &'static str, samples: usize, stored: bool| {
        let (ours, records, added) = port::run_whole(tape, samples, stored);
        let wrong = first_difference("samples", &bytes_of(&run.samples), &bytes_of(&ours))
            .or_else(|| first_difference("records", &run.records, &records))
            .or_else(|| (added != counts).then(|| format!("the records count {counts}, the answers {added}")));
        t.compare(name, seed, &tape.to_bytes(), wrong);
    };
    held("whole runs", samples, false);
    held("runs stored between calls", samples.clamp(64, 1000), true);
}
