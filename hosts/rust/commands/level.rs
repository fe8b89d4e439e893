//! `more1090 level`: the amplitude of a level.
use crate::more1090_generator::{level, tenths_of_db};
use crate::shell::{Command, Failure, print, refused, words};

pub const COMMAND: Command = Command {
    name: "level",
    arguments: "TENTHS_OR_DB",
    summary: "amplitude of a level in decibels",
    help: "Prints a level in dB, its amplitude and the bits of that f32. A number with a point is in dB, with one digit after\n\
        the point (31.5); a whole number is in tenths of a dB (315). Levels go from 0.0 to 200.0 dB, and are those of 4 samples\n\
        per pulse.\n",
    run,
};

/// A word with a point is in dB; without one it is in tenths, which is as if the point stood before its last digit.
fn tenths_of(word: &str) -> Result<u64, Failure> {
    let tenths = match word.strip_suffix(|c: char| c.is_ascii_digit()) {
        Some(rest) if !word.contains('.') => tenths_of_db(&format!("0{rest}.{}", &word[rest.len()..])),
        _ => tenths_of_db(word).filter(|_| word.contains('.')),
    };
    tenths.ok_or_else(|| Failure::Use(format!("{word} is no level: whole tenths (315), or dB with one digit after the point (31.5)")))
}

fn run(args: &[String]) -> Result<(), Failure> {
    let tenths = tenths_of(words(args, &[], 1, 1)?.rest[0])?;
    let amplitude = level(tenths).map_err(|number| refused(number, 0, 0))?;
    print(&format!("level {}.{} dB\namplitude {amplitude}\nbits {:08x}\n", tenths / 10, tenths % 10, amplitude.to_bits()))
}
