//! `more1090 rack`: a run of random replies, fed to one to sixteen files or pipes, each with its own delay and gain.
use crate::draws::{Asked, RandomRun, rate_of};
use crate::more1090_generator::{Rack, STOP_DONE};
use crate::shell::{
    Command, Failure, Output, SAMPLES_PER_PULSE, SUM, apart, duration, number, print_sums, refused, words_and_flags,
};

pub const COMMAND: Command = Command {
    name: "rack",
    arguments: "[--seed N] [--samples-per-pulse N] [--sum] SECONDS REPLIES_A_SECOND DELAY:GAIN:FILE ..",
    summary: "a run of random replies, delayed and scaled for each of up to sixteen files or pipes",
    help: "Makes SECONDS of signal with REPLIES_A_SECOND random replies on average (at most 1,000,000), and writes it to each\n\
        FILE as pairs of little-endian f32 (cf32): DELAY samples late (0 to 4095), with 0.0 before that, and multiplied by\n\
        GAIN (0 to 1). Every FILE is as long as the signal. A FILE may be a pipe that is there already, and one of them `-`,\n\
        standard output. Files get their names once the run is done. The same seed gives the same signal.\n\n\
        --seed N               a whole number below 2^64 (1)\n\
        --samples-per-pulse N  4, which is 8,000,000 samples a second, or 8, which is 16,000,000 (4)\n\
        --sum                  print the SHA-256 of what was written, a line a file as sha256sum prints it; on standard\n\
        \x20                      error where a FILE is standard output\n",
    run,
};

/// Samples of a run call.
const CALL: usize = 1 << 14;

/// The trigger level of its pulses.
const TRIGGER_LEVEL: f32 = 0.5;

struct Feed<'a> {
    delay: u64,
    gain: f32,
    file: &'a str,
}

fn feed_of(word: &str) -> Result<Feed<'_>, Failure> {
    let mut parts = word.splitn(3, ':');
    let (Some(delay), Some(gain), Some(file)) = (parts.next(), parts.next(), parts.next()) else {
        return Err(Failure::Use(format!("{word} is not DELAY:GAIN:FILE")));
    };
    Ok(Feed { delay: number(delay, "the delay")?, gain: number(gain, "the gain")?, file })
}

fn run(args: &[String]) -> Result<(), Failure> {
    let found = words_and_flags(args, &["--seed", SAMPLES_PER_PULSE], &[SUM], 3, usize::MAX)?;
    let asked = Asked {
        duration: duration(found.rest[0])?,
        rate: rate_of(found.rest[1], "REPLIES_A_SECOND")?,
        seed: found.number("--seed", 1)?,
        level: None,
        trigger_level: TRIGGER_LEVEL,
        samples_per_pulse: found.samples_per_pulse()?,
    };
    let feeds = found.rest[2..].iter().map(|word| feed_of(word)).collect::<Result<Vec<_>, _>>()?;
    for (k, one) in feeds.iter().enumerate() {
        feeds[..k].iter().try_for_each(|other| apart(other.file, one.file))?;
    }
    let delays: Vec<u64> = feeds.iter().map(|f| f.delay).collect();
    let gains: Vec<f32> = feeds.iter().map(|f| f.gain).collect();
    let rack = Rack::open(&delays, &gains).map_err(|number| refused(number, 0, 0))?;
    let run = RandomRun::open(&asked, CALL).map_err(|(number, value)| refused(number, value, 0))?;
    let sum = found.flag(SUM);
    let open = |f: &Feed| Ok(Output::open_binary(f.file)?.summed(sum));
    let mut outputs = feeds.iter().map(open).collect::<Result<Vec<_>, _>>()?;
    feed(run, rack, &mut outputs)?;
    outputs.iter_mut().try_for_each(Output::finish)?;
    let sums = Output::sum_lines(&outputs);
    outputs.into_iter().try_for_each(Output::close)?;
    print_sums(&sums, feeds.iter().any(|f| f.file == "-"))
}

/// Runs to the end, and hands each run call's samples to the rack.
fn feed(mut run: RandomRun, mut rack: Rack, outputs: &mut [Output]) -> Result<(), Failure> {
    let mut room = vec![0.0; outputs.len() * 2 * CALL];
    loop {
        let ran = run.call();
        if ran.refusal != 0 {
            return Err(refused(ran.refusal, ran.value, ran.field));
        }
        let (samples, _) = run.written(&ran);
        let room = &mut room[..outputs.len() * samples.len()];
        rack.call(samples, room).map_err(|number| refused(number, 0, 0))?;
        if !samples.is_empty() {
            for (to, part) in outputs.iter_mut().zip(room.chunks(samples.len())) {
                to.put(&part.iter().flat_map(|x| x.to_le_bytes()).collect::<Vec<u8>>())?;
            }
        }
        if ran.stop == STOP_DONE {
            return Ok(());
        }
    }
}
