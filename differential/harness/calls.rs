//! Lists of calls: one opening and run calls after it, as bytes for a program that makes them, and what the plain bench
//! says each must answer. The format is in README.md.

use crate::bench::{Bench, Call, Lengths, RIGHT_LENGTHS, Stop};
use crate::make;
use crate::random::Random;
use crate::rules::Refusal;
use crate::tape::*;

/// What every f32 of output and every byte of records holds before a call.
pub const OUTPUT_MARK: f32 = 12345.0;
pub const RECORDS_MARK: u8 = 0xaa;
/// What prototypes and working memory hold before opening.
pub const OPENING_MARK: f32 = 7.0;

/// A list of calls under way: the program's input, and the answer that is expected.
pub struct List {
    pub input: Vec<u8>,
    pub expected: Vec<u8>,
    pub calls: usize,
    /// What came of the opening and of each call, in words.
    pub seen: Vec<String>,
    calls_at: usize,
    bench: Option<Bench>,
}

impl List {
    pub fn open(settings: &[u8], mode_s: &[f32], mode_ac: &[f32], lent: Lengths) -> List {
        let mut input = Vec::new();
        put_u32(&mut input, settings.len());
        input.extend(settings);
        put_lengths(&mut input, lent);
        put_u32(&mut input, mode_s.len());
        put_u32(&mut input, mode_ac.len());
        put_floats(&mut input, mode_s);
        put_floats(&mut input, mode_ac);
        let calls_at = input.len();
        put_u32(&mut input, 0);
        let mut expected = Vec::new();
        let bench = Bench::open(settings, mode_s, mode_ac, lent);
        match &bench {
            Ok(bench) => {
                put_words(&mut expected, [0; 8]);
                for p in crate::judge::prototypes(&[mode_s, mode_ac].concat(), bench.trigger_level()) {
                    put_floats(&mut expected, &p);
                }
                put_floats(&mut expected, &vec![0.0; lent.memory]);
            }
            Err(r) => {
                put_refusal(&mut expected, *r);
                put_floats(
                    &mut expected,
                    &vec![OPENING_MARK; lent.mode_s + lent.mode_ac + lent.memory],
                );
            }
        }
        let seen = match &bench {
            Ok(_) => "opening: accepted".to_string(),
            Err(r) => format!("opening: refused {}", r.number),
        };
        List {
            input,
            expected,
            calls: 0,
            seen: vec![seen],
            calls_at,
            bench: bench.ok(),
        }
    }

    /// Adds a call and gives the bench's answer; no call can follow a refused opening.
    pub fn call(&mut self, c: &Call) -> Result<crate::bench::Ran, Refusal> {
        self.calls += 1;
        self.input[self.calls_at..self.calls_at + 4].copy_from_slice(&(self.calls as u32).to_le_bytes());
        put_lengths(&mut self.input, c.lengths);
        put_u32(&mut self.input, c.draws.len());
        self.input.extend(&c.draws);
        put_u32(&mut self.input, c.noise.len());
        put_floats(&mut self.input, &c.noise);
        put_u32(&mut self.input, c.output);
        put_u32(&mut self.input, c.records);
        let answer = self.bench.as_mut().expect("opened").call(c);
        self.seen.push(match &answer {
            Ok(ran) => format!("call: {:?}", ran.counts.stop),
            Err(r) => format!("call: refused {}", r.number),
        });
        let mut output = vec![OUTPUT_MARK; c.output];
        let mut records = vec![RECORDS_MARK; c.records];
        match &answer {
            Ok(ran) => {
                let n = ran.counts;
                let [taken, samples, noise, lines] = [n.taken, n.samples, n.noise, n.records].map(|x| x as u64);
                let [high, low] = [n.added >> 64, n.added].map(|x| x as u64);
                put_words(
                    &mut self.expected,
                    [0, stop_number(n.stop), taken, samples, noise, lines, high, low],
                );
                output[..ran.output.len()].copy_from_slice(&ran.output);
                records[..ran.records.len()].copy_from_slice(&ran.records);
            }
            Err(r) => put_refusal(&mut self.expected, *r),
        }
        put_floats(&mut self.expected, &output);
        self.expected.extend(&records);
        answer
    }

    pub fn opened(&self) -> bool {
        self.bench.is_some()
    }

    pub fn done(&self) -> bool {
        self.bench.as_ref().is_some_and(Bench::done)
    }
}

fn stop_number(s: Stop) -> u64 {
    match s {
        Stop::Done => 0,
        Stop::OutputFull => 1,
        Stop::WantsNoise => 2,
        Stop::WantsDraws => 3,
        Stop::RecordsFull => 4,
    }
}

fn put_u32(b: &mut Vec<u8>, n: usize) {
    b.extend(u32::try_from(n).unwrap().to_le_bytes());
}

fn put_lengths(b: &mut Vec<u8>, l: Lengths) {
    put_u32(b, l.memory);
    put_u32(b, l.mode_s);
    put_u32(b, l.mode_ac);
}

fn put_floats(b: &mut Vec<u8>, values: &[f32]) {
    for x in values {
        b.extend(x.to_le_bytes());
    }
}

fn put_words(b: &mut Vec<u8>, words: [u64; 8]) {
    for w in words {
        b.extend(w.to_le_bytes());
    }
}

fn put_refusal(b: &mut Vec<u8>, r: Refusal) {
    let held = r.values.iter().flatten().count() as u64;
    let value = |k: usize| r.values[k].unwrap_or(0);
    put_words(b, [1, r.number, held, value(0), value(1), 0, 0, 0]);
}

/// A call that lends draws and noise, with room for so many samples and for a record of each draw.
pub fn lend_all(draws: &[Draw], noise: &[f32], samples: usize) -> Call {
    Call {
        lengths: RIGHT_LENGTHS,
        draws: draws.iter().flat_map(draw_to_bytes).collect(),
        noise: noise.to_vec(),
        output: (2 * samples).max(2),
        records: RECORD_BYTES * draws.len(),
    }
}

/// A tape cut into calls: the list, and what the calls wrote in all.
pub struct Cut {
    pub list: List,
    /// The tape's draws as they were lent in the end.
    pub draws: Vec<Draw>,
    pub samples: Vec<f32>,
    pub records: Vec<u8>,
    taken: usize,
    used: usize,
}

impl Cut {
    /// Makes a call; says whether it took a draw or wrote a sample.
    fn call(&mut self, c: &Call) -> bool {
        let Ok(ran) = self.list.call(c) else { return false };
        let taken = c
            .draws
            .chunks(DRAW_BYTES)
            .take(ran.counts.taken)
            .map(draw_from_bytes);
        self.draws
            .splice(self.taken..self.taken + ran.counts.taken, taken);
        self.taken += ran.counts.taken;
        self.used += ran.counts.noise;
        self.samples.extend(&ran.output);
        self.records.extend(&ran.records);
        ran.counts.taken + ran.counts.samples > 0
    }

    /// One call that lends all that is left.
    fn lend_rest(&mut self, tape: &Tape) -> bool {
        let samples = usize::try_from(tape.settings.samples()).unwrap();
        let call = lend_all(&self.draws[self.taken..], &tape.noise[self.used..], samples);
        self.call(&call)
    }
}

/// A tape cut into calls at random, some of them refused; the last one lends all that is left.
pub fn random_cuts(r: &mut Random, tape: &Tape) -> Cut {
    let (mode_s, mode_ac) = tape.taps.split_at(MODE_S_TAPS);
    let mut cut = Cut {
        list: List::open(&tape.settings.to_bytes(), mode_s, mode_ac, RIGHT_LENGTHS),
        draws: tape.draws.clone(),
        samples: Vec::new(),
        records: Vec::new(),
        taken: 0,
        used: 0,
    };
    if !cut.list.opened() {
        return cut;
    }
    let coarse = r.pick(&[3, 40, 400, 4000]);
    let (calls, mut still) = (r.between(1, 200), 0);
    while !cut.list.done() && cut.list.calls < calls && still < 30 {
        let mut call = part(r, &cut.draws[cut.taken..], &tape.noise[cut.used..], coarse);
        if r.once_in(12) {
            spoil(r, &mut call);
        }
        still = if cut.call(&call) { 0 } else { still + 1 };
        if cut.taken < cut.draws.len() && r.once_in(8) {
            // The draw that comes next is another one than was lent: it may jump back.
            cut.draws[cut.taken].gap *= r.pick(&[0.0, 0.5, 0.999, 1.0, 1.5, 3.0, 100.0]);
        }
    }
    // A first draw that jumps back is put later and lent again.
    if !cut.lend_rest(tape) && cut.taken < cut.draws.len() {
        cut.draws[cut.taken].gap = 1e6;
        cut.lend_rest(tape);
    }
    cut
}

/// A call that lends a first part of what is left, and some room.
fn part(r: &mut Random, draws: &[Draw], noise: &[f32], coarse: usize) -> Call {
    let lent = r.between(0, 6).min(draws.len());
    let lent = if r.once_in(6) { draws.len().min(60) } else { lent };
    Call {
        lengths: RIGHT_LENGTHS,
        draws: draws[..lent].iter().flat_map(draw_to_bytes).collect(),
        noise: noise[..r.below(2 * coarse + 2).min(noise.len())].to_vec(),
        output: 2 * r.between(1, coarse),
        records: r.pick(&[0, 65, 66, 67, 132, 198, 660, 660]),
    }
}

/// Makes a call such that it is refused, mostly.
fn spoil(r: &mut Random, c: &mut Call) {
    let draws = c.draws.len() / DRAW_BYTES;
    match r.below(8) {
        0 => c.output = r.pick(&[0, 1, 3, c.output + 1]),
        1 => c.lengths.memory = r.pick(&wrong_lengths(|n| n.working_memory)),
        2 => c.lengths.mode_s = r.pick(&wrong_lengths(|n| n.prototype)),
        3 => c.lengths.mode_ac = r.pick(&wrong_lengths(|n| n.prototype)),
        4 => c.draws.extend(vec![0; r.between(1, 64)]),
        5 if !c.noise.is_empty() => {
            let k = r.below(c.noise.len());
            c.noise[k] = r.pick(&[f32::NAN, 64f32.next_up(), -65.0, f32::INFINITY]);
        }
        6 | 7 if draws > 0 => {
            let at = DRAW_BYTES * r.below(draws);
            let k = at + r.below(DRAW_BYTES);
            c.draws[k] = r.pick(&[0x7f, 0xff, 0xf0, 0x80]);
            c.draws[at + 8] ^= r.below(2) as u8;
        }
        _ => c.noise.clear(),
    }
}

/// None, one value off, and the other setting's.
fn wrong_lengths(of: fn(Numbers) -> usize) -> [usize; 4] {
    [0, of(HERE) - 1, of(HERE) + 1, of(THERE)]
}

/// Lengths of settings to try: none, those of earlier settings, right, and too long.
pub const SETTINGS_LENGTHS: [usize; 6] = [0, 119, 123, 124, 125, 128];

/// An opening whose lengths, settings or taps may be wrong, with no call after it.
pub fn random_opening(r: &mut Random, tape: &Tape) -> List {
    let (mut mode_s, mut mode_ac) = tape.taps.split_at(MODE_S_TAPS);
    let mut lent = RIGHT_LENGTHS;
    let mut length = SETTINGS_BYTES;
    match r.below(7) {
        0 => lent.memory = r.pick(&wrong_lengths(|n| n.working_memory)),
        1 => lent.mode_s = r.pick(&wrong_lengths(|n| n.prototype)),
        2 => lent.mode_ac = r.pick(&wrong_lengths(|n| n.prototype)),
        3 => mode_s = &mode_s[..r.pick(&[0, 1, MODE_S_TAPS - 1])],
        4 => mode_ac = &mode_ac[..r.pick(&[0, 1, MODE_AC_TAPS - 1])],
        5 => length = r.pick(&SETTINGS_LENGTHS),
        _ => (mode_s, mode_ac) = tape.taps.split_at(r.pick(&[MODE_S_TAPS - 1, MODE_S_TAPS + 1])),
    }
    let mut s = tape.settings;
    if r.once_in(8) {
        // The other setting's lengths are wrong in the library, its taps' count on a tape.
        let none = r.pick(&make::NO_SETTINGS);
        s.samples_per_pulse = r.pick(&[OTHER, none]);
        let all = Lengths { memory: THERE.working_memory, mode_s: THERE.prototype, mode_ac: THERE.prototype };
        lent = if r.once_in(2) { all } else { lent };
    }
    match r.below(8) {
        0 => s.nanoseconds = 1_000_000_000,
        1 => s.rates[r.below(7)] = -1.0,
        2 => s.rates = [0.0; 7],
        3 => s.clock.kind = 2,
        4 => s.trigger_level = r.pick(&make::LEVELS_OUT_OF_RANGE),
        _ => {}
    }
    let mut bytes = s.to_bytes();
    bytes.resize(length, 0);
    List::open(&bytes, mode_s, mode_ac, lent)
}
