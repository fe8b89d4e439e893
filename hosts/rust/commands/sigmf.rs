//! `more1090 sigmf`: the SigMF metadata of samples, with an annotation for each record.
use crate::more1090_generator::{RECORD_LEN, SamplesPerPulse, compare_log};
use crate::sha512::Sha512;
use crate::shell::{Command, Failure, Output, SAMPLES_PER_PULSE, Words, apart, read, refused, words};
use std::fs::File;
use std::io::Read;
use std::path::Path;

pub const COMMAND: Command = Command {
    name: "sigmf",
    arguments: "[--format lines] [--samples-per-pulse N] [--delay SAMPLES] [--description TEXT] SAMPLES RECORDS [META]",
    summary: "SigMF metadata of samples, with their records as annotations",
    help: "Writes the SigMF metadata of SAMPLES, a file of cf32: data type, sample rate, centre frequency, SHA-512, and for\n\
        each record an annotation with its first sample, count, type, message and C/N0, in the order of first samples. META\n\
        is NAME.sigmf-meta where SAMPLES is NAME.sigmf-data; of another name of SAMPLES, META must be given (- is standard\n\
        output), and it names the file of samples as its data set.\n\n\
        RECORDS has records of 66 bytes, as `more1090 scenario --run` and the program cf32 write them; - is standard input.\n\
        With --format lines it has the lines that `more1090 random` writes.\n\n\
        --samples-per-pulse N  4, which is 8,000,000 samples a second, or 8, which is 16,000,000 (4)\n\
        --delay SAMPLES        by which the samples are later than their records, as of a feed of `more1090 rack` (0)\n\
        --description TEXT     of the recording\n\n\
        A record that does not lie within the samples is refused: it is of another run.\n",
    run,
};

const DATA_END: &str = ".sigmf-data";
const META_END: &str = ".sigmf-meta";
const SAMPLE_LEN: u64 = 8;
const CARRIER_HZ: u64 = 1_090_000_000;
const SIGMF_VERSION: &str = "1.0.0";
/// The version of our own fields, which begin with `more1090:`.
const FIELDS_VERSION: &str = "1.0.0";
const VERSION: &str = include_str!("../../../VERSION");
const TYPES: [&str; 7] =
    ["extended squitter", "acquisition squitter", "short AP", "all-call reply", "long AP", "military squitter", "Mode A/C"];
const MODE_AC: u8 = 6;

/// What an annotation is made from.
struct Reply {
    first: u64,
    count: u64,
    kind: u8,
    /// Hexadecimal digits; Mode A/C high byte first.
    message: String,
    /// Fields of our own, by name, each a finite number or left out.
    numbers: Vec<(&'static str, f64)>,
}

fn of_record(r: &[u8]) -> Reply {
    let eight = |at: usize| r[at..at + 8].try_into().unwrap_or([0; 8]);
    let number = |at: usize| f64::from_le_bytes(eight(at));
    let kind = r[48];
    let mut message = r[52..52 + usize::from(r[51])].to_vec();
    if kind == MODE_AC {
        message.reverse();
    }
    Reply {
        first: u64::from_le_bytes(eight(40)),
        count: u16::from_le_bytes([r[49], r[50]]).into(),
        kind,
        message: message.iter().map(|b| format!("{b:02x}")).collect(),
        numbers: vec![("cn0", number(8)), ("time", number(0)), ("carrier_offset", number(16)), ("clock_error", number(32))],
    }
}

/// Records of 66 bytes; the library says which are accepted.
fn of_records(name: &str, bytes: &[u8]) -> Result<Vec<Reply>, Failure> {
    compare_log(&[], bytes, 0).map_err(|(number, value)| match refused(number, value, 0) {
        Failure::Refused(why) => Failure::Refused(format!("{name}: {why}")),
        other => other,
    })?;
    Ok(bytes.chunks(RECORD_LEN).map(of_record).collect())
}

/// A line of `more1090 random`: first sample, type, count, time, C/N0, message.
fn of_line(line: &str) -> Option<Reply> {
    let words: Vec<&str> = line.split_whitespace().collect();
    let [first, kind, count, time, cn0, message, ..] = words[..] else { return None };
    let digits = message.bytes().all(|b| b.is_ascii_hexdigit());
    Some(Reply {
        first: first.parse().ok()?,
        count: count.parse().ok()?,
        kind: kind.parse().ok().filter(|k| *k <= MODE_AC)?,
        message: Some(message).filter(|_| digits)?.into(),
        numbers: vec![("cn0", cn0.parse().ok()?), ("time", time.parse().ok()?)],
    })
}

fn of_lines(name: &str, bytes: &[u8]) -> Result<Vec<Reply>, Failure> {
    let text = String::from_utf8_lossy(bytes);
    let wrong = |k: usize| Failure::Refused(format!("{name}, line {}: it is no line of `more1090 random`", k + 1));
    text.lines().enumerate().map(|(k, line)| of_line(line).ok_or_else(|| wrong(k))).collect()
}

/// The SHA-512 of a file in digits, and its length.
fn sum_of(name: &str) -> Result<(String, u64), Failure> {
    let failed = |e| Failure::File(name.into(), e);
    let mut file = File::open(name).map_err(failed)?;
    let (mut sum, mut length, mut part) = (Sha512::new(), 0, vec![0; 1 << 20]);
    loop {
        match file.read(&mut part).map_err(failed)? {
            0 => return Ok((sum.hex(), length)),
            n => {
                sum.put(&part[..n]);
                length += n as u64;
            }
        }
    }
}

/// A text in quotation marks.
fn quoted(text: &str) -> String {
    let mut out = String::from("\"");
    for c in text.chars() {
        match c {
            '"' | '\\' => out.extend(['\\', c]),
            c if c < ' ' => out += &format!("\\u{:04x}", c as u32),
            c => out.push(c),
        }
    }
    out + "\""
}

fn annotation(reply: &Reply) -> String {
    let kind = TYPES[usize::from(reply.kind)];
    let label = match reply.kind {
        MODE_AC => "Mode A/C".into(),
        _ => format!("DF {}", u8::from_str_radix(reply.message.get(..2).unwrap_or("0"), 16).unwrap_or(0) >> 3),
    };
    let mut text = format!(
        "    {{\"core:sample_start\": {}, \"core:sample_count\": {}, \"core:label\": {}, \"core:comment\": {}, \
        \"more1090:type\": {}, \"more1090:message\": {}",
        reply.first,
        reply.count,
        quoted(&label),
        quoted(&format!("{kind} {}", reply.message)),
        reply.kind,
        quoted(&reply.message),
    );
    for (name, number) in reply.numbers.iter().filter(|n| n.1.is_finite()) {
        text += &format!(", \"more1090:{name}\": {number}");
    }
    text + "}"
}

/// Everything before the annotations.
fn head(setting: SamplesPerPulse, sum: &str, data_set: Option<&str>, description: &str) -> String {
    let mut global = vec![
        ("datatype", quoted("cf32_le")),
        ("sample_rate", setting.sample_rate().to_string()),
        ("version", quoted(SIGMF_VERSION)),
        ("num_channels", "1".into()),
        ("sha512", quoted(sum)),
        ("description", quoted(description)),
        ("recorder", quoted(&format!("more1090 {}", VERSION.trim()))),
        ("extensions", format!("[{{\"name\": \"more1090\", \"version\": \"{FIELDS_VERSION}\", \"optional\": true}}]")),
    ];
    global.extend(data_set.map(|name| ("dataset", quoted(name))));
    let global: Vec<String> = global.iter().map(|(name, value)| format!("    \"core:{name}\": {value}")).collect();
    let captures = format!("    {{\"core:sample_start\": 0, \"core:frequency\": {CARRIER_HZ}}}");
    format!("{{\n  \"global\": {{\n{}\n  }},\n  \"captures\": [\n{captures}\n  ],\n  \"annotations\": [", global.join(",\n"))
}

/// In the order of first samples, later by a delay; what is then behind the last sample is cut off.
fn delayed(replies: &mut Vec<Reply>, delay: u64, total: u64) {
    for r in replies.iter_mut() {
        r.first = r.first.saturating_add(delay).min(total);
        r.count = r.count.min(total - r.first);
    }
    replies.retain(|r| r.count > 0);
    replies.sort_by_key(|r| r.first);
}

fn setting_of(number: u8) -> Result<SamplesPerPulse, Failure> {
    match number {
        4 | 8 => Ok(SamplesPerPulse::of(number.into())),
        _ => Err(refused(15, 0, 0)),
    }
}

/// The name of the metadata: that of `NAME.sigmf-data`, or another one that is given.
fn meta_of(samples: &str, given: Option<&&str>) -> Result<String, Failure> {
    let own = samples.strip_suffix(DATA_END).filter(|name| !name.is_empty() && !name.ends_with('/'));
    match (given, own) {
        (Some(meta), _) => Ok(meta.to_string()),
        (None, Some(name)) => Ok(format!("{name}{META_END}")),
        (None, None) => Err(Failure::Use(format!("{samples} does not end in {DATA_END}: META must be given"))),
    }
}

/// The replies of RECORDS, each within the total of samples.
fn replies_of(words: &Words, total: u64) -> Result<Vec<Reply>, Failure> {
    let name = words.rest[1];
    let shown = if name == "-" { "standard input" } else { name };
    let bytes = read(name)?;
    let replies = match words.option("--format") {
        None | Some("records") => of_records(shown, &bytes)?,
        Some("lines") => of_lines(shown, &bytes)?,
        Some(other) => return Err(Failure::Use(format!("--format is records or lines, and not {other}"))),
    };
    let within = |r: &Reply| r.first.checked_add(r.count).is_some_and(|end| end <= total);
    match replies.iter().position(|r| !within(r)) {
        Some(k) => Err(Failure::Refused(format!("{shown}: record {k} is not within the {total} samples"))),
        None => Ok(replies),
    }
}

fn run(args: &[String]) -> Result<(), Failure> {
    let words = words(args, &["--format", SAMPLES_PER_PULSE, "--delay", "--description"], 2, 3)?;
    let (samples, records) = (words.rest[0], words.rest[1]);
    let setting = setting_of(words.samples_per_pulse()?)?;
    let delay: u64 = words.number("--delay", 0)?;
    let meta = meta_of(samples, words.rest.get(2))?;
    apart(samples, &meta)?;
    if records != "-" {
        apart(records, &meta)?;
    }
    let (sum, length) = sum_of(samples)?;
    if length % SAMPLE_LEN != 0 {
        return Err(Failure::Refused(format!("{samples}: its length is no multiple of {SAMPLE_LEN} bytes, two f32")));
    }
    let total = length / SAMPLE_LEN;
    let mut replies = replies_of(&words, total)?;
    delayed(&mut replies, delay, total);
    // A data set of the metadata's own name needs none in it.
    let conforms = meta.strip_suffix(META_END).is_some_and(|name| *samples == format!("{name}{DATA_END}"));
    let file = Path::new(samples).file_name().map(|n| n.to_string_lossy().into_owned());
    let description = words.option("--description").unwrap_or("Mode S and Mode A/C replies in noise, made by more1090");
    let mut out = Output::open(&meta)?;
    out.put(head(setting, &sum, file.as_deref().filter(|_| !conforms), description).as_bytes())?;
    for (k, reply) in replies.iter().enumerate() {
        out.put(if k == 0 { b"\n" } else { b",\n" })?;
        out.put(annotation(reply).as_bytes())?;
    }
    out.put(b"\n  ]\n}\n")?;
    out.close()
}
