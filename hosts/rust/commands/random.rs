//! `more1090 random`: a whole run with random replies as the published Rust draws them, windowed-sinc lowpasses and normal noise.
use crate::draws::{Asked, RandomRun, level_of, rate_of};
use crate::more1090_generator::{RECORD_LEN, STOP_DONE};
use crate::shell::{
    Command, Failure, Output, SAMPLES_PER_PULSE, SUM, Words, apart, close_both, duration, message_text, note, number,
    print_sums, refused, words_and_flags,
};

pub const COMMAND: Command = Command {
    name: "random",
    arguments: "[OPTION VALUE].. [--sum] SECONDS REPLIES_A_SECOND SEED OUT [RECORDS]",
    summary: "samples of a random run, and its records",
    help: "Writes SECONDS (digits, and at most nine after a point) of signal to OUT: pairs of little-endian f32 at 8,000,000 a\n\
        second, or 16,000,000. Replies come at random, REPLIES_A_SECOND on average (at most 1,000,000). SEED is a whole number\n\
        below 2^64; the same words give the same bytes. RECORDS gets a line for each reply: first sample, type, count of\n\
        samples, time in samples, C/N0 in dB Hz, message; Mode A/C high byte first, and its squawk behind it.\n\n\
        --level DB             the level of every reply, 0.0 to 200.0 dB, at 4 samples per pulse; otherwise each has its own,\n\
        \x20                      by distance\n\
        --trigger-level PART   where on its rise a pulse is timed, 0.1 to 0.9 of its height (0.5)\n\
        --samples-per-pulse N  4, which is 8,000,000 samples a second, or 8, which is 16,000,000 (4)\n\
        --sum                  print the SHA-256 of what was written, a line a file as sha256sum prints it; on standard\n\
        \x20                      error where an output is standard output\n\n\
        For OUT or RECORDS, - is standard output. A file gets its name once the run is done, and the samples before the\n\
        records; a run that is refused, fails or is interrupted leaves no file, and files of that name as they were. A pipe\n\
        or device gets samples and records as they are made, records first: of a run that ends early each reply in the\n\
        samples has its record, and the last records may lack samples. Standard error has a line a second of signal.\n",
    run,
};

const SAMPLES_A_CALL: usize = 1 << 16;

fn asked(words: &Words) -> Result<Asked, Failure> {
    let rate = rate_of(words.rest[1], "REPLIES_A_SECOND")?;
    let level = level_of(words)?;
    Ok(Asked {
        duration: duration(words.rest[0])?,
        rate,
        seed: number(words.rest[2], "SEED")?,
        level,
        trigger_level: words.number("--trigger-level", 0.5)?,
        samples_per_pulse: words.samples_per_pulse()?,
    })
}

fn line(r: &[u8]) -> String {
    let number = |at: usize| f64::from_le_bytes(r[at..at + 8].try_into().unwrap());
    let first = u64::from_le_bytes(r[40..48].try_into().unwrap());
    let count = u16::from_le_bytes([r[49], r[50]]);
    format!("{first} {} {count} {} {:.1} {}\n", r[48], number(0), number(8), message_text(&r[51..]))
}

fn simulate(mut made: RandomRun, out: &mut Output, mut lines: Option<&mut Output>) -> Result<(), Failure> {
    let (mut replies, mut added, mut reported) = (0, 0, 0);
    let sample_rate = made.run.samples_per_pulse().sample_rate();
    loop {
        let ran = made.call();
        if ran.refusal != 0 {
            return Err(refused(ran.refusal, ran.value, ran.field));
        }
        let (samples, records) = made.written(&ran);
        if let Some(lines) = &mut lines {
            lines.put_at_once(records.chunks(RECORD_LEN).map(line).collect::<String>().as_bytes())?;
        }
        out.put_at_once(&samples.iter().flat_map(|x| x.to_le_bytes()).collect::<Vec<u8>>())?;
        replies += ran.records_written;
        added += ran.samples_added();
        let (done, state) = (ran.stop == STOP_DONE, &made.run.state);
        if done || state.written / sample_rate > reported {
            reported = state.written / sample_rate;
            note(&format!("{} of {} samples, {replies} replies, {added} reply samples added", state.written, state.total));
        }
        if done {
            return Ok(());
        }
    }
}

fn run(args: &[String]) -> Result<(), Failure> {
    let words = words_and_flags(args, &["--level", "--trigger-level", SAMPLES_PER_PULSE], &[SUM], 4, 5)?;
    let asked = asked(&words)?;
    let (name, records) = (words.rest[3], words.rest.get(4).copied());
    if let Some(records) = records {
        apart(name, records)?;
    }
    // Settings are checked before a file is touched.
    let opened = RandomRun::open(&asked, SAMPLES_A_CALL).map_err(|(number, value)| refused(number, value, 0))?;
    let sum = words.flag(SUM);
    let mut out = Output::open_binary(name)?.summed(sum);
    let mut lines = records.map(Output::open).transpose()?.map(|lines| lines.summed(sum));
    simulate(opened, &mut out, lines.as_mut())?;
    let sums = Output::sum_lines([Some(&out), lines.as_ref()].into_iter().flatten());
    match lines {
        Some(lines) => close_both(out, lines)?,
        None => out.close()?,
    }
    print_sums(&sums, name == "-" || records == Some("-"))
}
