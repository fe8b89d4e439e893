//! The port's opening and run calls, through its C interface (`include/more1090_generator.h`) and its binding for Rust.

#[path = "../../../hosts/rust/more1090_generator.rs"]
pub mod more1090_generator;

use crate::calls::{OPENING_MARK, OUTPUT_MARK, RECORDS_MARK};
use crate::tape::*;
use more1090_generator::{STOP_DONE, RunResult, Run, State};

/// A run that the port opened, with the memory lent to it.
pub struct Port {
    state: State,
    mode_s: Vec<f32>,
    mode_ac: Vec<f32>,
    memory: Vec<f32>,
}

/// What is lent to a call: so many f32 of working memory and of each prototype, draws, noise, output, records.
struct Lent<'a> {
    lengths: [usize; 3],
    draws: &'a [u8],
    noise: &'a [f32],
    output: &'a mut [f32],
    records: &'a mut [u8],
}

impl Port {
    /// Opens a run on memory of those lengths, filled with marks.
    fn open(settings: &[u8], taps_s: &[f32], taps_ac: &[f32], lengths: [usize; 3]) -> (Port, u64, u64) {
        let [mut memory, mut mode_s, mut mode_ac] = lengths.map(|n| vec![OPENING_MARK; n]);
        let opened =
            more1090_generator::open(settings, taps_s, taps_ac, &mut mode_s, &mut mode_ac, &mut memory);
        let p = Port {
            state: opened.state,
            mode_s,
            mode_ac,
            memory,
        };
        (p, opened.refusal, opened.value)
    }

    fn run(&mut self, l: Lent) -> RunResult {
        // A length asked for above what there is: more is lent, as marks.
        let lend = |v: &mut Vec<f32>, n: usize| v.resize(n.max(v.len()), OPENING_MARK);
        let whole = [self.memory.len(), self.mode_s.len(), self.mode_ac.len()];
        lend(&mut self.memory, l.lengths[0]);
        lend(&mut self.mode_s, l.lengths[1]);
        lend(&mut self.mode_ac, l.lengths[2]);
        let ran = more1090_generator::run(
            self.state,
            &self.mode_s[..l.lengths[1]],
            &self.mode_ac[..l.lengths[2]],
            &mut self.memory[..l.lengths[0]],
            l.draws,
            l.noise,
            l.output,
            l.records,
        );
        self.memory.truncate(whole[0]);
        self.mode_s.truncate(whole[1]);
        self.mode_ac.truncate(whole[2]);
        self.state = ran.state;
        ran
    }

    /// The answers to a list of calls as `calls` writes it: for opening and each call six numbers, then the lent buffers.
    pub fn answers(input: &[u8]) -> Vec<u8> {
        let mut r = Reader { rest: input };
        let n = r.count();
        let settings = r.take(n);
        let lengths = [r.count(), r.count(), r.count()];
        let (s, ac) = (r.count(), r.count());
        let (taps_s, taps_ac) = (floats(r.take(4 * s)), floats(r.take(4 * ac)));
        let (mut p, refusal, value) = Port::open(settings, &taps_s, &taps_ac, lengths);
        let mut b = Vec::new();
        put_answer(&mut b, refusal, [value, 0], [0; 7]);
        for list in [&p.mode_s, &p.mode_ac, &p.memory] {
            put_floats(&mut b, list);
        }
        if refusal != 0 {
            return b;
        }
        for _ in 0..r.count() {
            p.call(&mut r, &mut b);
        }
        b
    }

    fn call(&mut self, r: &mut Reader, b: &mut Vec<u8>) {
        let lengths = [r.count(), r.count(), r.count()];
        let n = r.count();
        let draws = r.take(n);
        let n = r.count();
        let noise = floats(r.take(4 * n));
        let mut output = vec![OUTPUT_MARK; r.count()];
        let mut records = vec![RECORDS_MARK; r.count()];
        let ran = self.run(Lent {
            lengths,
            draws,
            noise: &noise,
            output: &mut output,
            records: &mut records,
        });
        let counts = [
            ran.stop,
            ran.draws_taken,
            ran.samples_written,
            ran.noise_used,
            ran.records_written,
            ran.samples_added_high,
            ran.samples_added_low,
        ];
        put_answer(b, ran.refusal, [ran.value, ran.field], counts);
        put_floats(b, &output);
        b.extend(&records);
    }
}

/// Samples and records of a tape that the rules accept, and the reply samples added in all, lent so many samples of noise and output at a time. Where it is to be
/// stored, the run is stored as bytes after each call, and the next call is made on the run that those bytes give. Where
/// nothing goes on before it is done, what is missing shows in the comparison.
pub fn run_whole(tape: &Tape, samples: usize, stored: bool) -> (Vec<f32>, Vec<u8>, u128) {
    let (taps_s, taps_ac) = tape.taps.split_at(MODE_S_TAPS);
    let draws: Vec<u8> = tape.draws.iter().flat_map(draw_to_bytes).collect();
    let mut all = (Vec::new(), Vec::new(), 0);
    let (mut taken, mut used) = (0, 0);
    let mut next = Run::open(&tape.settings.to_bytes(), taps_s, taps_ac).ok();
    while let Some(mut run) = next {
        let mut output = vec![OUTPUT_MARK; 2 * samples];
        let mut records = vec![RECORDS_MARK; 10 * RECORD_BYTES];
        let to = (used + 2 * samples).min(tape.noise.len());
        let ran = run.call(
            &draws[DRAW_BYTES * taken..],
            &tape.noise[used..to],
            &mut output,
            &mut records,
        );
        all.0.extend(&output[..2 * ran.samples_written as usize]);
        all.1.extend(&records[..RECORD_BYTES * ran.records_written as usize]);
        all.2 += ran.samples_added();
        taken += ran.draws_taken as usize;
        used += ran.noise_used as usize;
        if ran.refusal != 0 || ran.stop == STOP_DONE || ran.draws_taken + ran.samples_written == 0 {
            break;
        }
        next = if stored { taken_up(&run.save()) } else { Some(run) };
    }
    all
}

/// The run that was stored as these bytes; none where bytes of another length, or with a bit changed, are taken for one.
fn taken_up(bytes: &[u8]) -> Option<Run> {
    let longer = [bytes, &[0]].concat();
    let flipped = |at: usize| {
        let mut other = bytes.to_vec();
        other[at] ^= 1 << (at % 8);
        other
    };
    let (first, middle, last) = (flipped(0), flipped(bytes.len() / 2), flipped(bytes.len() - 1));
    let others = [&[], &bytes[1..], &longer, &first, &middle, &last];
    let taken = others.iter().any(|b| Run::restore(b).is_ok());
    Run::restore(bytes).ok().filter(|_| !taken)
}

/// A refusal with its values, or a stop and the counts.
fn put_answer(b: &mut Vec<u8>, refusal: u64, values: [u64; 2], counts: [u64; 7]) {
    let held = match refusal {
        2 | 4 | 8 => 1,
        7 => 2,
        _ => 0,
    };
    let words = match refusal {
        0 => {
            let [stop, taken, samples, noise, records, high, low] = counts;
            [0, stop, taken, samples, noise, records, high, low]
        }
        _ => [1, refusal, held, values[0], values[1], 0, counts[5], counts[6]],
    };
    for w in words {
        b.extend(w.to_le_bytes());
    }
}

fn put_floats(b: &mut Vec<u8>, values: &[f32]) {
    for x in values {
        b.extend(x.to_le_bytes());
    }
}

struct Reader<'a> {
    rest: &'a [u8],
}

impl<'a> Reader<'a> {
    fn take(&mut self, n: usize) -> &'a [u8] {
        let (a, b) = self.rest.split_at(n);
        self.rest = b;
        a
    }

    fn count(&mut self) -> usize {
        u32_at(self.take(4), 0) as usize
    }
}
