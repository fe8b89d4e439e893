//! `more1090 single`: one reply alone, as cf32.
use crate::draws::{Level, level_of, lowpasses, noise};
use crate::messages::{Picks, picks};
use crate::more1090_generator::{SamplesPerPulse, single};
use crate::shell::{
    Command, Failure, Output, SAMPLES_PER_PULSE, SUM, Words, bytes_of, number, print_sums, refused, words_and_flags,
};

pub const COMMAND: Command = Command {
    name: "single",
    arguments: "[OPTION VALUE].. [--sum] TYPE OUT",
    summary: "samples of one reply alone",
    help: "Writes one reply of a type, 0 to 6, to OUT: pairs of little-endian f32 at 8,000,000 a second, or 16,000,000. - is\n\
        standard output.\n\n\
        --message HEX          7 or 14 bytes; the last three of types 0, 1 and 3 become the parity, of type 3 with the overlay.\n\
        \x20                      Type 6: four digits, of the data (the squawk's digits, three bits each) and SPI as bit 12:\n\
        \x20                      squawk 7000 is 0e00. Without it, 0 in all that the type leaves open\n\
        --level DB             0.0 to 200.0 dB with one digit after the point or none, at 4 samples per pulse\n\
        --amplitude A          in place of a level, 0 to 1048576 (1)\n\
        --offset HZ            of the carrier, at most half the samples a second in size (0)\n\
        --phase RADIANS        of the carrier, at the reply's time (0)\n\
        --clock E              error of the symbol clock, at most 0.1 in size (0)\n\
        --overlay O            of an all-call reply, 1 to 127 (1)\n\
        --time SAMPLES         the reply's time, 0 or above, with a fraction as it may be (50)\n\
        --samples N            of the whole stretch, at most 80,000,000 (1200, and at 8 samples per pulse 2400); what lies\n\
        \x20                      outside is trimmed\n\
        --noise SEED           normal noise, as that of `more1090 random` with this seed; otherwise there is none\n\
        --trigger-level PART   where on its rise a pulse is timed, 0.1 to 0.9 of its height (0.5)\n\
        --samples-per-pulse N  4, which is 8,000,000 samples a second, or 8, which is 16,000,000 (4)\n\
        --sum                  print the SHA-256 of what was written; on standard error where OUT is -\n\n\
        A file gets its name once all is written. What is refused touches no file.\n",
    run,
};

/// Ten seconds at 4 samples per pulse: the stretch is held in memory.
const MOST_SAMPLES: u32 = 80_000_000;
/// A stretch, in pulses, that holds the longest reply.
const STRETCH: u32 = 300;

fn picks_of(kind: u8, hex: Option<&str>) -> Result<Picks, Failure> {
    match hex {
        Some(hex) => picks(kind, &bytes_of(hex)?).map_err(|why| Failure::Use(format!("--message: {why}"))),
        None => Ok(Picks::default()),
    }
}

/// The amplitude, and the C/N0 beside it in the draw, which no sample shows.
fn amplitude(w: &Words) -> Result<(f32, f64), Failure> {
    if w.flag("--level") && w.flag("--amplitude") {
        return Err(Failure::Use("--level and --amplitude are one or the other".into()));
    }
    match level_of(w)? {
        Some(Level { cn0, amplitude }) => Ok((amplitude, cn0)),
        None => Ok((w.number("--amplitude", 1f32)?, 0.0)),
    }
}

/// The seconds and nanoseconds of so many samples: the least that have them.
fn duration_of(samples: u32, sample_rate: u64) -> (u64, u32) {
    const BILLION: u64 = 1_000_000_000;
    let behind = u64::from(samples) % sample_rate * BILLION;
    (u64::from(samples) / sample_rate, behind.div_ceil(sample_rate) as u32)
}

/// A run's settings: a rate for every type, and carrier and clock as asked for, each a constant.
fn settings(w: &Words, setting: SamplesPerPulse, samples: u32) -> Result<Vec<u8>, Failure> {
    let (seconds, nanoseconds) = duration_of(samples, setting.sample_rate());
    let mut s = Vec::new();
    s.extend(seconds.to_le_bytes());
    s.extend(nanoseconds.to_le_bytes());
    s.extend(1f64.to_le_bytes().repeat(7));
    for name in ["--offset", "--phase", "--clock"] {
        s.push(0);
        s.extend(w.number(name, 0f64)?.to_le_bytes());
        s.extend(0f64.to_le_bytes());
    }
    s.extend(w.number("--trigger-level", 0.5f32)?.to_le_bytes());
    s.push(w.samples_per_pulse()?);
    Ok(s)
}

fn draw(w: &Words, kind: u8) -> Result<Vec<u8>, Failure> {
    let picks = picks_of(kind, w.option("--message"))?;
    let (amplitude, cn0) = amplitude(w)?;
    let mut d = Vec::new();
    d.extend(w.number("--time", 50f64)?.to_le_bytes());
    d.push(kind);
    d.extend(cn0.to_le_bytes());
    d.extend(amplitude.to_le_bytes());
    // The carrier, phase and clock error of a draw: the settings' constants are taken in their place.
    d.extend([0; 24]);
    d.extend(picks.bytes(w.number("--overlay", 1u8)?));
    Ok(d)
}

const OPTIONS: [&str; 12] = [
    "--message", "--level", "--amplitude", "--offset", "--phase", "--clock", "--overlay", "--time", "--samples", "--noise",
    "--trigger-level", SAMPLES_PER_PULSE,
];

fn run(args: &[String]) -> Result<(), Failure> {
    let w = words_and_flags(args, &OPTIONS, &[SUM], 2, 2)?;
    let kind: u8 = number(w.rest[0], "TYPE")?;
    if kind > 6 {
        return Err(Failure::Use(format!("TYPE: {kind} is no type, 0 to 6")));
    }
    let setting = SamplesPerPulse::of(w.samples_per_pulse()?.into());
    let samples: u32 = w.number("--samples", STRETCH * setting as u32)?;
    if samples > MOST_SAMPLES {
        return Err(Failure::Use(format!("--samples: {samples} is above {MOST_SAMPLES}")));
    }
    let numbers = 2 * samples as usize;
    let noise = match w.option("--noise") {
        Some(seed) => noise(number(seed, "--noise")?, numbers),
        None => vec![0.0; numbers],
    };
    let (taps_s, taps_ac) = lowpasses(setting);
    let mut output = vec![0.0; numbers];
    let r = single(&settings(&w, setting, samples)?, &taps_s, &taps_ac, &draw(&w, kind)?, &noise, &mut output);
    if r.refusal != 0 {
        return Err(refused(r.refusal, r.value, r.field));
    }
    let mut out = Output::open_binary(w.rest[1])?.summed(w.flag(SUM));
    out.put(&output.iter().flat_map(|x| x.to_le_bytes()).collect::<Vec<u8>>())?;
    let sum = Output::sum_lines([&out]);
    out.close()?;
    print_sums(&sum, w.rest[1] == "-")
}
