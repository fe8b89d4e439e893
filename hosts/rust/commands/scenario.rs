//! `more1090 scenario`: a text file of aircraft and replies, made into a tape, or run to samples and records.
use crate::exact::{Noise, lowpasses};
use crate::more1090_generator::{DRAW_LEN, RECORD_LEN, Run, RunResult, STOP_DONE};
use crate::scenario::Scenario;
use crate::shell::{
    Command, Failure, Output, SUM, Words, apart, apart_from_input, close_both, message_text, note, print_sums, read, refused,
    words_and_flags,
};

pub const COMMAND: Command = Command {
    name: "scenario",
    arguments: "[--sum] FILE [TAPE] | --run [--sum] FILE OUT [RECORDS] | --list FILE",
    summary: "a tape, or samples, from a text file of aircraft and replies",
    help: "Reads a scenario, a text file, and writes a tape of it to TAPE, or to standard output. A tape holds 400 draws, one\n\
        of which ends it: a scenario of more than 399 replies is refused. With --run the number is any: OUT gets the\n\
        samples, pairs of little-endian f32 at 8,000,000 a second or 16,000,000, and RECORDS a record of 66 bytes for each\n\
        reply. With --list it prints each reply's time in seconds, type and message, and makes nothing. - is standard input\n\
        or output.\n\n\
        A line has a word and then NAME=VALUE, in any order; # begins a comment. The first line is `run`:\n\
        \x20   run seconds=0.5 [seed=1] [noise=SEED or off] [samples-per-pulse=4] [trigger-level=0.5]\n\
        Then a line for each aircraft, with a rate, in replies a second, for each format that it sends:\n\
        \x20   aircraft address=40621d altitude=38000 latitude=52.2572 longitude=3.9194 cn0=85.0 position=2 df4=5\n\
        or for one reply:\n\
        \x20   reply at=0.001 send=df4 address=40621d altitude=38000 cn0=80.0\n\
        \x20   reply at=0.002 message=8d4840d6202cc371c32ce0576098 cn0=80.0\n\n\
        Formats: df0 df4 df5 df11 all-call df16 df20 df21 identification position velocity mode-a mode-c.\n\
        address              six hexadecimal digits\n\
        squawk, spi          four digits from 0 to 7; 1 for the special pulse in Mode A\n\
        altitude, climb      feet, -1000 to 126700; feet a minute\n\
        callsign             up to eight of A to Z, 0 to 9, and _ for a blank\n\
        latitude, longitude  degrees north and east, -90 to 90 and -180 to 180\n\
        speed, track         knots up to 1021; degrees clockwise from north\n\
        gnss-above           feet of the height by satellites above the altitude by pressure\n\
        register             14 hexadecimal digits that DF 16, 20 and 21 carry (of DF 20 and 21 the callsign's)\n\
        ii, si               the interrogator of all-call replies: II code 1 to 15, or SI code 1 to 63\n\
        cn0 or amplitude     C/N0 in dB Hz with one digit after the point or none, 0.0 to 200.0; or the amplitude\n\
        carrier, clock       offset of the carrier in Hz; error of the symbol clock, at most 0.1 in size\n\
        phase                of the carrier in radians (drawn at random)\n\
        odd                  1 for a single position in an odd frame (0)\n\
        jitter               how far the time from one reply to the next departs from even, as a part of it, 0 to 1 (0.2)\n\
        from, to             seconds between which an aircraft sends (all)\n\n\
        docs/SCENARIO.md says what each format carries. The same scenario gives the same bytes on every machine. --sum prints\n\
        the SHA-256 of what was written, on standard error where an output is standard output. A file gets its name once all\n\
        is written.\n",
    run,
};

const MOST_DRAWS: usize = 400;
const SAMPLES_A_CALL: usize = 1 << 16;
const REPLIES_A_CALL: usize = 64;

fn bytes_of_floats(floats: impl IntoIterator<Item = f32>) -> Vec<u8> {
    floats.into_iter().flat_map(f32::to_le_bytes).collect()
}

/// The noise of a scenario, value by value: zeros where it is off.
fn noise_of(made: &Scenario) -> Box<dyn Iterator<Item = f32>> {
    match made.noise {
        Some(seed) => Box::new(Noise::of_seed(seed)),
        None => Box::new(std::iter::repeat(0.0)),
    }
}

/// The draws of a tape with the one that ends it.
fn draws_of(name: &str, made: &mut Scenario) -> Result<Vec<u8>, Failure> {
    let mut draws = Vec::new();
    let mut replies = 0;
    while let Some(reply) = made.next() {
        replies += 1;
        if replies < MOST_DRAWS {
            draws.extend(made.draw(&reply));
        }
    }
    if replies >= MOST_DRAWS {
        return Err(Failure::Refused(format!(
            "{name}: it has {replies} replies, and a tape holds {} and the draw that ends it: \
            make it shorter, or write its samples with --run",
            MOST_DRAWS - 1
        )));
    }
    draws.extend(made.end_draw());
    Ok(draws)
}

/// Writes a tape (SPECIFICATION 4.6).
fn tape(name: &str, mut made: Scenario, to: &str, sum: bool) -> Result<(), Failure> {
    let values = u32::try_from(2 * made.total)
        .map_err(|_| Failure::Refused(format!("{name}: a tape holds at most 2^32 - 1 noise values, two for each sample")))?;
    let draws = draws_of(name, &mut made)?;
    let (taps_s, taps_ac) = lowpasses(made.setting);
    let mut out = Output::open_binary(to)?.summed(sum);
    let mut section = |count: usize, bytes: &[u8]| {
        out.put(&(count as u32).to_le_bytes())?;
        out.put(bytes)
    };
    section(1, &made.settings)?;
    section(taps_s.len() + taps_ac.len(), &bytes_of_floats([taps_s, taps_ac].concat()))?;
    section(draws.len() / DRAW_LEN, &draws)?;
    section(values as usize, &[])?;
    let mut noise = noise_of(&made);
    let mut left = values as usize;
    while left > 0 {
        let part = left.min(SAMPLES_A_CALL);
        out.put(&bytes_of_floats(noise.by_ref().take(part)))?;
        left -= part;
    }
    end(vec![out], to == "-")
}

/// Outputs get their names, and their sums are printed: on standard error where bytes went to standard output.
fn end(mut outputs: Vec<Output>, piped: bool) -> Result<(), Failure> {
    let sums = Output::sum_lines(&outputs);
    match (outputs.pop(), outputs.pop()) {
        (Some(records), Some(samples)) => close_both(samples, records)?,
        (Some(only), None) => only.close()?,
        _ => (),
    }
    print_sums(&sums, piped)
}

/// A run of a scenario and what is passed to its calls.
struct Made {
    scenario: Scenario,
    run: Run,
    noise: Box<dyn Iterator<Item = f32>>,
    ended: bool,
    draws: Vec<u8>,
    values: Vec<f32>,
    output: Vec<f32>,
    records: Vec<u8>,
}

impl Made {
    fn open(scenario: Scenario) -> Result<Made, Failure> {
        let (taps_s, taps_ac) = lowpasses(scenario.setting);
        let run = Run::open(&scenario.settings, &taps_s, &taps_ac).map_err(|(number, value)| refused(number, value, 0))?;
        Ok(Made {
            run,
            noise: noise_of(&scenario),
            scenario,
            ended: false,
            draws: Vec::new(),
            values: Vec::new(),
            output: vec![0.0; 2 * SAMPLES_A_CALL],
            records: vec![0; REPLIES_A_CALL * RECORD_LEN],
        })
    }

    /// The next run call, with new draws and noise behind those that were left.
    fn call(&mut self) -> RunResult {
        while !self.ended && self.draws.len() < REPLIES_A_CALL * DRAW_LEN {
            match self.scenario.next() {
                Some(reply) => self.draws.extend(self.scenario.draw(&reply)),
                None => {
                    self.draws.extend(self.scenario.end_draw());
                    self.ended = true;
                }
            }
        }
        let lacking = self.output.len() - self.values.len();
        self.values.extend(self.noise.by_ref().take(lacking));
        let ran = self.run.call(&self.draws, &self.values, &mut self.output, &mut self.records);
        self.draws.drain(..DRAW_LEN * ran.draws_taken as usize);
        self.values.drain(..ran.noise_used as usize);
        ran
    }
}

/// Writes samples and records to the end; records first, so that each reply in the samples of a pipe has its record.
fn simulate(mut made: Made, outputs: &mut [Output]) -> Result<(), Failure> {
    let (mut replies, mut reported) = (0, 0);
    let sample_rate = made.scenario.setting.sample_rate();
    loop {
        let ran = made.call();
        if ran.refusal != 0 {
            return Err(refused(ran.refusal, ran.value, ran.field));
        }
        if let [_, records] = outputs {
            records.put_at_once(&made.records[..RECORD_LEN * ran.records_written as usize])?;
        }
        let samples = &made.output[..2 * ran.samples_written as usize];
        outputs[0].put_at_once(&bytes_of_floats(samples.iter().copied()))?;
        replies += ran.records_written;
        let (done, state) = (ran.stop == STOP_DONE, &made.run.state);
        if done || state.written / sample_rate > reported {
            reported = state.written / sample_rate;
            note(&format!("{} of {} samples, {replies} replies", state.written, state.total));
        }
        if done {
            return Ok(());
        }
    }
}

fn list(made: Scenario) -> Result<(), Failure> {
    let rate = made.setting.sample_rate() as f64;
    let mut out = Output::open("-")?;
    for reply in made {
        out.put(format!("{:.9} {} {}\n", reply.samples() / rate, reply.kind, message_text(&reply.length_and_bytes())).as_bytes())?;
    }
    out.close()
}

const RUN: &str = "--run";
const LIST: &str = "--list";

/// What is asked for: a tape, a run or a list; and whether the other words are as many as it takes.
fn asked(words: &Words) -> Result<(bool, bool), Failure> {
    let (running, listing) = (words.flag(RUN), words.flag(LIST));
    let (least, most) = match (running, listing) {
        (true, true) => return Err(Failure::Use("--run and --list are one or the other".into())),
        (true, false) => (2, 3),
        (false, true) => (1, 1),
        (false, false) => (1, 2),
    };
    match words.rest.len() {
        n if n < least => Err(Failure::Use("an argument is missing".into())),
        n if n > most => Err(Failure::Use(format!("{} is one argument too many", words.rest[most]))),
        _ => Ok((running, listing)),
    }
}

/// The scenario of a file, and what the file is called.
fn scenario_of(name: &str) -> Result<(Scenario, &str), Failure> {
    let shown = if name == "-" { "standard input" } else { name };
    let text = String::from_utf8(read(name)?).map_err(|_| Failure::Refused(format!("{shown}: it is no text")))?;
    let made = Scenario::of(shown, &text)?;
    if let Some(line) = made.all_calls {
        note(&format!("{shown}, line {line}: all-call replies have the address 000000, as the generator makes them"));
    }
    Ok((made, shown))
}

fn run(args: &[String]) -> Result<(), Failure> {
    let words = words_and_flags(args, &[], &[RUN, LIST, SUM], 1, 3)?;
    let (running, listing) = asked(&words)?;
    let (name, outs, sum) = (words.rest[0], &words.rest[1..], words.flag(SUM));
    if let [samples, records] = outs {
        apart(samples, records)?;
    }
    outs.iter().try_for_each(|out| apart_from_input(name, out))?;
    let (made, shown) = scenario_of(name)?;
    if listing {
        return list(made);
    }
    if !running {
        return tape(shown, made, outs.first().unwrap_or(&"-"), sum);
    }
    let made = Made::open(made)?;
    let open = |name: &&str| Ok(Output::open_binary(name)?.summed(sum));
    let mut outputs = outs.iter().map(open).collect::<Result<Vec<_>, Failure>>()?;
    simulate(made, &mut outputs)?;
    end(outputs, outs.contains(&"-"))
}
