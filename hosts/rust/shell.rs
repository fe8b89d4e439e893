//! What every command of `more1090` does alike: arguments, files that are whole or not there, refusals in words, exit statuses.
// A command uses a part of it.
#![allow(dead_code)]

use crate::sha256::Sha256;
use crate::signals;
use std::fs::{self, File};
use std::io::{BufWriter, Error, ErrorKind, IsTerminal, Read, Write};
use std::os::fd::AsFd;
use std::os::unix::fs::{FileTypeExt, MetadataExt};
use std::path::{Path, PathBuf};

/// A command: its name, its arguments in a line, a sentence for the list, its help, and what it does.
pub struct Command {
    pub name: &'static str,
    pub arguments: &'static str,
    pub summary: &'static str,
    pub help: &'static str,
    pub run: fn(&[String]) -> Result<(), Failure>,
}

/// How a command ends where it does not end well.
pub enum Failure {
    /// What was asked for is refused, and why.
    Refused(String),
    /// The command's words are wrong, and how.
    Use(String),
    /// A file or pipe that cannot be read or written: its name, and what the system says.
    File(String, std::io::Error),
}

impl Failure {
    pub fn status(&self) -> i32 {
        match self {
            Failure::Refused(_) => 1,
            Failure::Use(_) => 2,
            Failure::File(..) => 3,
        }
    }

    /// Says it on standard error.
    pub fn report(&self) {
        let text = match self {
            Failure::Refused(why) => format!("more1090: {why}"),
            Failure::Use(how) => format!("more1090: {}", how.trim_end()),
            Failure::File(name, e) => format!("more1090: {name}: {e}"),
        };
        note(&text);
    }

    /// A refusal of what a file holds, with its name.
    pub fn of_file(self, name: &str) -> Failure {
        match self {
            Failure::Refused(why) => Failure::Refused(format!("{}: {why}", shown_input(name))),
            other => other,
        }
    }

    /// A wrong use, with the command's line of arguments.
    pub fn of_command(self, c: &Command) -> Failure {
        match self {
            Failure::Use(how) => Failure::Use(format!("{how}\nusage: more1090 {} {}", c.name, c.arguments)),
            other => other,
        }
    }
}

/// A command's words: options by name, each with a value, flags, and the rest in order.
pub struct Words<'a> {
    options: Vec<(&'a str, &'a str)>,
    pub rest: Vec<&'a str>,
}

/// The flag of every command that writes samples: print the SHA-256 of what was written.
pub const SUM: &str = "--sum";

/// The option of every command that makes a run: its samples per pulse.
pub const SAMPLES_PER_PULSE: &str = "--samples-per-pulse";

/// The words of a command that takes these options, each once, and from `least` to `most` other words. A word of its own that
/// begins with `-` is `-` itself, or a negative number.
pub fn words<'a>(args: &'a [String], options: &[&str], least: usize, most: usize) -> Result<Words<'a>, Failure> {
    words_and_flags(args, options, &[], least, most)
}

/// `words`, with flags: options that take no value.
pub fn words_and_flags<'a>(
    args: &'a [String],
    options: &[&str],
    flags: &[&str],
    least: usize,
    most: usize,
) -> Result<Words<'a>, Failure> {
    let mut found = Words { options: Vec::new(), rest: Vec::new() };
    let mut left = args.iter();
    while let Some(word) = left.next() {
        if word.starts_with('-') && word != "-" && word.parse::<f64>().is_err() {
            let flag = flags.contains(&word.as_str());
            if !flag && !options.contains(&word.as_str()) {
                return Err(Failure::Use(format!("there is no option {word}")));
            }
            if found.flag(word) {
                return Err(Failure::Use(format!("{word} is given twice")));
            }
            let value = if flag { Some(word) } else { left.next() };
            found.options.push((word, value.ok_or_else(|| Failure::Use(format!("{word} wants a value")))?));
        } else {
            found.rest.push(word);
        }
    }
    match found.rest.len() {
        n if n < least => Err(Failure::Use("an argument is missing".into())),
        n if n > most => Err(Failure::Use(format!("{} is one argument too many", found.rest[most]))),
        _ => Ok(found),
    }
}

impl Words<'_> {
    pub fn option(&self, name: &str) -> Option<&str> {
        self.options.iter().find(|(n, _)| *n == name).map(|(_, v)| *v)
    }

    /// Whether a flag is given.
    pub fn flag(&self, name: &str) -> bool {
        self.option(name).is_some()
    }

    /// The number of `SAMPLES_PER_PULSE`, 4 where it is not given. The library refuses what is neither 4 nor 8.
    pub fn samples_per_pulse(&self) -> Result<u8, Failure> {
        self.number(SAMPLES_PER_PULSE, 4)
    }

    /// An option's number, or another where it is not given.
    pub fn number<T: std::str::FromStr>(&self, name: &str, other: T) -> Result<T, Failure> {
        self.option(name).map_or(Ok(other), |text| number(text, name))
    }
}

/// A number of the type asked for; `what` is what it stands for.
pub fn number<T: std::str::FromStr>(text: &str, what: &str) -> Result<T, Failure> {
    text.parse().map_err(|_| Failure::Use(format!("{what}: {text} is no number that it takes")))
}

const NANOSECOND_DIGITS: usize = 9;

/// Seconds and nanoseconds of a duration in decimal digits, exact: at most nine of them after the point.
pub fn duration(text: &str) -> Result<(u64, u32), Failure> {
    let (whole, part) = text.split_once('.').unwrap_or((text, "0"));
    let digits = |t: &str| !t.is_empty() && t.bytes().all(|b| b.is_ascii_digit());
    let seconds = whole.parse().ok().filter(|_| digits(whole) && digits(part) && part.len() <= NANOSECOND_DIGITS);
    match (seconds, format!("{part:0<NANOSECOND_DIGITS$}").parse()) {
        (Some(seconds), Ok(nanoseconds)) => Ok((seconds, nanoseconds)),
        _ => Err(Failure::Use(format!("{text} is no number of seconds: digits, and at most nine after a point"))),
    }
}

/// What a name of an input is called in an error.
fn shown_input(name: &str) -> &str {
    if name == "-" { "standard input" } else { name }
}

/// A file that is read in parts, or standard input for `-`.
pub struct Input {
    name: String,
    from: File,
}

impl Input {
    pub fn open(name: &str) -> Result<Input, Failure> {
        let own = || Ok(File::from(std::io::stdin().as_fd().try_clone_to_owned()?));
        let from = if name == "-" { own() } else { File::open(name) };
        Ok(Input { name: name.into(), from: from.map_err(|e| Failure::File(shown_input(name).into(), e))? })
    }

    /// The next n bytes, or as many as are left.
    pub fn next(&mut self, n: u64) -> Result<Vec<u8>, Failure> {
        let mut bytes = Vec::new();
        let read = (&mut self.from).take(n).read_to_end(&mut bytes);
        read.map_err(|e| Failure::File(shown_input(&self.name).into(), e))?;
        Ok(bytes)
    }

    /// Reads until the bytes are full or the input ends; how many are read.
    pub fn fill(&mut self, bytes: &mut [u8]) -> Result<usize, Failure> {
        let mut done = 0;
        while done < bytes.len() {
            match self.from.read(&mut bytes[done..]) {
                Ok(0) => break,
                Ok(n) => done += n,
                Err(e) if e.kind() == ErrorKind::Interrupted => (),
                Err(e) => return Err(Failure::File(shown_input(&self.name).into(), e)),
            }
        }
        Ok(done)
    }
}

/// A file whole, or standard input for `-`.
pub fn read(name: &str) -> Result<Vec<u8>, Failure> {
    Input::open(name)?.next(u64::MAX)
}

/// A line to standard error; a closed one is no reason to end.
pub fn note(text: &str) {
    let _ = writeln!(std::io::stderr(), "{text}");
}

/// Text to standard output.
pub fn print(text: &str) -> Result<(), Failure> {
    write("-", text.as_bytes())
}

/// The lines of `Output::sum_lines`: on standard error where standard output has samples or records.
pub fn print_sums(lines: &str, beside_samples: bool) -> Result<(), Failure> {
    match lines {
        "" => Ok(()),
        _ if beside_samples => Ok(note(lines.trim_end())),
        _ => print(lines),
    }
}

/// Bytes to a file, whole or not at all, or to standard output for `-`.
pub fn write(name: &str, bytes: &[u8]) -> Result<(), Failure> {
    let mut out = Output::open(name)?;
    out.put(bytes)?;
    out.close()
}

/// A file that is written under a temporary name and gets its own when it is closed; standard output for `-`; or what is
/// there already and is no regular file, a pipe or a device, as it is. Dropped without `close`, or ended by a signal, it
/// leaves nothing.
pub struct Output {
    name: String,
    /// The temporary name and the one that the file gets.
    names: Option<(PathBuf, PathBuf)>,
    to: BufWriter<File>,
    sum: Option<Sha256>,
}

impl Output {
    pub fn open(name: &str) -> Result<Output, Failure> {
        let shown = if name == "-" { "standard output" } else { name };
        let failed = |e| Failure::File(shown.into(), e);
        let output = |names, to| Output { name: shown.into(), names, to: BufWriter::new(to), sum: None };
        if name == "-" {
            return Ok(output(None, standard_output().map_err(failed)?));
        }
        if name.is_empty() || name.ends_with('/') {
            return Err(failed(Error::new(ErrorKind::InvalidInput, "it is no name of a file")));
        }
        let there = fs::metadata(name).ok();
        if let Some(there) = &there {
            // A file that may not be written is not replaced either.
            let to = File::options().write(true).open(name).map_err(failed)?;
            if !there.is_file() {
                return Ok(output(None, to));
            }
        }
        // A link stays, and what it leads to is written.
        let own = fs::canonicalize(name).unwrap_or_else(|_| name.into());
        let temporary = beside(&own);
        let to = File::create_new(&temporary).map_err(failed)?;
        signals::remove_when_ended(&temporary);
        let output = output(Some((temporary, own)), to);
        if let Some(there) = there {
            output.to.get_ref().set_permissions(there.permissions()).map_err(failed)?;
        }
        Ok(output)
    }

    /// An output for bytes that are no text: a terminal is not one.
    pub fn open_binary(name: &str) -> Result<Output, Failure> {
        let output = Output::open(name)?;
        if output.to.get_ref().is_terminal() {
            return Err(Failure::Use(format!("{} is a terminal, and samples are no text: name a file or a pipe", output.name)));
        }
        Ok(output)
    }

    /// Its bytes are summed from here on.
    pub fn summed(mut self, wanted: bool) -> Output {
        self.sum = wanted.then(Sha256::new);
        self
    }

    pub fn put(&mut self, bytes: &[u8]) -> Result<(), Failure> {
        if let Some(sum) = &mut self.sum {
            sum.put(bytes);
        }
        self.to.write_all(bytes).map_err(|e| Failure::File(self.name.clone(), e))
    }

    /// Bytes that a reader of a pipe gets now.
    pub fn put_at_once(&mut self, bytes: &[u8]) -> Result<(), Failure> {
        self.put(bytes)?;
        self.to.flush().map_err(|e| Failure::File(self.name.clone(), e))
    }

    /// Everything is handed on; a file is on the disk, under its temporary name.
    pub fn finish(&mut self) -> Result<(), Failure> {
        let done = self.to.flush().and_then(|()| if self.names.is_some() { self.to.get_ref().sync_all() } else { Ok(()) });
        done.map_err(|e| Failure::File(self.name.clone(), e))
    }

    /// Everything is handed on, and the file has its name.
    pub fn close(mut self) -> Result<(), Failure> {
        self.finish()?;
        if let Some((temporary, own)) = &self.names {
            fs::rename(temporary, own).map_err(|e| Failure::File(self.name.clone(), e))?;
        }
        Ok(())
    }

    /// The line that `sha256sum` prints for what was put since `summed`.
    pub fn sum_line(&self) -> Option<String> {
        let name = if self.name == "standard output" { "-" } else { &self.name };
        self.sum.clone().map(|sum| format!("{}  {name}\n", sum.hex()))
    }

    /// Such a line for each output that is summed.
    pub fn sum_lines<'a>(outputs: impl IntoIterator<Item = &'a Output>) -> String {
        outputs.into_iter().filter_map(Output::sum_line).collect()
    }
}

impl Drop for Output {
    fn drop(&mut self) {
        // After a rename nothing has the temporary name.
        if let Some((temporary, _)) = &self.names {
            let _ = fs::remove_file(temporary);
            signals::removed(temporary);
        }
    }
}

/// Closes samples and the records that belong to them: both are finished before one gets its name, and records of an earlier
/// run are gone before the samples get theirs. So what has the name of records is never of other samples.
pub fn close_both(mut samples: Output, mut records: Output) -> Result<(), Failure> {
    samples.finish()?;
    records.finish()?;
    if let Some((_, own)) = &records.names {
        let _ = fs::remove_file(own);
    }
    samples.close()?;
    records.close()
}

/// Standard output as a file, so that a write that fails is reported; the standard library takes a closed one for a sink.
fn standard_output() -> Result<File, Error> {
    if signals::standard_output_was_closed() {
        return Err(Error::new(ErrorKind::BrokenPipe, "it is closed"));
    }
    Ok(File::from(std::io::stdout().as_fd().try_clone_to_owned()?))
}

/// What two names of outputs are compared by: a file, pipe or block device that is there, or the folder and the name.
fn identity(name: &str) -> Option<(u64, u64, Option<std::ffi::OsString>)> {
    let path = Path::new(if name == "-" { "/dev/stdout" } else { name });
    if let Ok(m) = fs::metadata(path) {
        return (!m.file_type().is_char_device()).then(|| (m.dev(), m.ino(), None));
    }
    let folder = path.parent().filter(|p| !p.as_os_str().is_empty()).unwrap_or(Path::new("."));
    let m = fs::metadata(folder).ok()?;
    Some((m.dev(), m.ino(), path.file_name().map(Into::into)))
}

/// Refuses two outputs that are one file.
pub fn apart(one: &str, other: &str) -> Result<(), Failure> {
    let device = |name: &str| fs::metadata(name).is_ok_and(|m| m.file_type().is_char_device());
    if (one == other && !device(one)) || (identity(one).is_some() && identity(one) == identity(other)) {
        return Err(Failure::Use(format!("{one} and {other} are one file: the outputs want a file each")));
    }
    Ok(())
}

/// Refuses an output that is the file which is read, and would take its place.
pub fn apart_from_input(input: &str, output: &str) -> Result<(), Failure> {
    let read = fs::metadata(if input == "-" { "/dev/stdin" } else { input });
    if read.is_ok_and(|m| m.is_file() && identity(output) == Some((m.dev(), m.ino(), None))) {
        return Err(Failure::Use(format!("{output} is the file that is read: the output wants one of its own")));
    }
    Ok(())
}

/// A name in the same folder that no other run of the program uses.
fn beside(name: &Path) -> PathBuf {
    let mut own = std::ffi::OsString::from(".");
    own.push(name.file_name().unwrap_or_default());
    own.push(format!(".{}.part", std::process::id()));
    name.with_file_name(own)
}

/// The bytes that hexadecimal digits stand for.
pub fn bytes_of(hex: &str) -> Result<Vec<u8>, Failure> {
    let digits: Option<Vec<u8>> = hex.chars().map(|c| c.to_digit(16).map(|d| d as u8)).collect();
    match digits {
        Some(d) if d.len() % 2 == 0 => Ok(d.chunks(2).map(|p| 16 * p[0] + p[1]).collect()),
        _ => Err(Failure::Use(format!("{hex} is not in hexadecimal digits, two a byte"))),
    }
}

/// The bytes of little-endian f32 values.
pub fn floats_of(bytes: &[u8]) -> Vec<f32> {
    bytes.chunks_exact(4).map(|b| f32::from_le_bytes([b[0], b[1], b[2], b[3]])).collect()
}

/// A message in hexadecimal from its length and bytes; Mode A/C high byte first, as the tape program and paper have it, and behind
/// it the squawk: the four octal digits of its data.
pub fn message_text(length_and_bytes: &[u8]) -> String {
    let bytes = &length_and_bytes[1..][..usize::from(length_and_bytes[0])];
    match *bytes {
        [low, high] => {
            let word = u16::from_le_bytes([low, high]);
            format!("{word:04x} {:04o}", word & MODE_AC_DATA)
        }
        _ => bytes.iter().map(|b| format!("{b:02x}")).collect(),
    }
}

/// The bits of Mode A/C data; SPI is the one above them.
pub const MODE_AC_DATA: u16 = 0xfff;

const FIELDS: [&str; 13] = [
    "gap", "type", "CN0", "amplitude", "carrier", "phase", "clock error", "format pick", "capability pick", "overlay", "bytes",
    "Mode A/C data", "SPI",
];

pub const LENGTH_REFUSED: u64 = 9;

/// Refusal 9 of bytes that are to be entries of a length.
pub fn refused_length(entries: &str, length: usize) -> Failure {
    Failure::Refused(format!("refused 9: no whole number of {entries}, {length} bytes each"))
}

/// A refusal in words (SPECIFICATION 3.1): what its number means, with the values beside it.
pub fn refused(number: u64, value: u64, field: u64) -> Failure {
    let why = match number {
        1 => "the duration: nanoseconds above 999,999,999, or more than 2^52 samples".into(),
        2 => format!("rate {value} is negative or not finite"),
        3 => "the rates' total is 0 or not finite".into(),
        4 => format!("{}: an unknown kind, or a parameter out of range", ["the carrier offset", "the phase", "the clock error"][value.min(2) as usize]),
        5 => "the taps: a list of another length, or a tap not finite or above 16 in size".into(),
        6 => "a prototype value not finite or above 16 in size, or no crossing of the trigger level".into(),
        7 => format!("draw {value}, field {field} ({}) is out of range", FIELDS.get(field as usize).unwrap_or(&"?")),
        8 => format!("noise value {value} is not finite or above 64 in size"),
        9 => "bytes or numbers of a wrong length".into(),
        10 => "Mode A/C data of 4096 or more, or a digit of 8 or more".into(),
        11 => "the tape: short, a wrong count, more than 400 draws, bytes left over, or draws or noise that run out".into(),
        12 => "output or noise of another length than the duration asks for".into(),
        13 => "a level above 200.0 dB".into(),
        14 => "the trigger level is not from 0.1 to 0.9".into(),
        15 => "samples per pulse other than 4 or 8".into(),
        16 => "the log is out of order, or a message in it has a length other than 2, 7 or 14".into(),
        17 => "the feeds: their number is not 1 to 16, or a delay or gain is out of range".into(),
        18 => format!("record {value} is no record of a run"),
        _ => "a refusal of no known number".into(),
    };
    Failure::Refused(format!("refused {number}: {why}"))
}
