//! `more1090 heard`: what a receiver heard, held against the records of a run.
use crate::more1090_generator::{ENTRY_LEN, NOBODY, RECORD_LEN, compare_log};
use crate::shell::{
    Command, Failure, LENGTH_REFUSED, bytes_of, message_text, number, print, read, refused, refused_length, words,
};
use std::fmt::Write;

pub const COMMAND: Command = Command {
    name: "heard",
    arguments: "LOG RECORDS TOLERANCE [--format avr] [--start TICKS] [--rate RATE]",
    summary: "what a receiver heard, held against what was sent",
    help: "Pairs each message of LOG, in its order, with the earliest record of RECORDS that is still free, has the same message and\n\
        a first sample at most TOLERANCE samples from it; `any` is the largest tolerance. Prints the counts of pairs, of records\n\
        unheard and of entries unsent, and lists the unheard and the unsent. No pairing has more pairs.\n\n\
        LOG has entries of 23 bytes: sample u64, little-endian; message length u8; message u8[14]. RECORDS has records of 66\n\
        bytes. With --format avr LOG is text as decoders write it, a message a line:\n\
        \x20   *8D4840D6202CC371C32CE0576098;              no time: the sample of the line before, 0 at the first\n\
        \x20   @0000016CE3671C8D4840D6202CC371C32CE0576098;  a timestamp of 48 bits at 12 MHz, then the message\n\
        A timestamp is turned into a sample, the nearest: TICKS (0) is the timestamp of sample 0, and RATE (8000000) the samples\n\
        a second: 16000000 where the run had 8 samples per pulse. A message of four digits is Mode A/C, high byte first, as the\n\
        records are printed; the lists have its squawk behind it. `-` is standard input.\n",
    run,
};

const LOG_REFUSED: u64 = 16;
const TICKS_A_SECOND: u128 = 12_000_000;
const TIMESTAMP_DIGITS: usize = 12;

/// A log's entries from AVR lines. Lines of blanks are left out.
fn entries_of(text: &[u8], start: u64, rate: u64) -> Result<Vec<u8>, Failure> {
    let mut entries = Vec::new();
    let mut sample = 0;
    for (k, line) in text.split(|&b| b == b'\n').enumerate() {
        let line = String::from_utf8_lossy(line);
        let line = line.trim();
        if line.is_empty() {
            continue;
        }
        let wrong = |what: &str| Failure::Refused(format!("line {}: {what}: {line}", k + 1));
        let body = line.strip_suffix(';').ok_or_else(|| wrong("no `;` at its end"))?;
        let message = if let Some(message) = body.strip_prefix('*') {
            message
        } else if let Some((time, message)) = body.strip_prefix('@').and_then(|b| b.split_at_checked(TIMESTAMP_DIGITS)) {
            let time = bytes_of(time).map_err(|_| wrong("no timestamp of 12 hexadecimal digits"))?;
            let ticks = time.iter().fold(0, |v: u64, &b| v << 8 | u64::from(b));
            let since = ticks.checked_sub(start).ok_or_else(|| wrong("a timestamp before --start"))?;
            sample = sample_of(since, rate);
            message
        } else {
            return Err(wrong("neither `*` and a message nor `@`, a timestamp and a message"));
        };
        let mut bytes = bytes_of(message).map_err(|_| wrong("not in hexadecimal digits, two a byte"))?;
        if ![2, 7, 14].contains(&bytes.len()) {
            return Err(wrong("a message has 2, 7 or 14 bytes"));
        }
        if bytes.len() == 2 {
            bytes.reverse();
        }
        entries.extend_from_slice(&sample.to_le_bytes());
        entries.push(bytes.len() as u8);
        bytes.resize(ENTRY_LEN - 9, 0);
        entries.extend_from_slice(&bytes);
    }
    Ok(entries)
}

/// The sample nearest to a time in ticks; the largest where it is larger.
fn sample_of(ticks: u64, rate: u64) -> u64 {
    let nearest = (2 * u128::from(ticks) * u128::from(rate) + TICKS_A_SECOND) / (2 * TICKS_A_SECOND);
    nearest.try_into().unwrap_or(u64::MAX)
}

fn u64_of(bytes: &[u8]) -> u64 {
    bytes.iter().take(8).rev().fold(0, |v, &b| v << 8 | u64::from(b))
}

/// The lines of those entries or records that have no partner.
fn list(title: &str, partners: &[u64], line: impl Fn(usize) -> String) -> String {
    let mut text = String::new();
    for (k, _) in partners.iter().enumerate().filter(|(_, p)| **p == NOBODY) {
        if text.is_empty() {
            text = format!("\n{title}\n");
        }
        let _ = writeln!(text, "{k:>10} {}", line(k));
    }
    text
}

fn run(args: &[String]) -> Result<(), Failure> {
    let words = words(args, &["--format", "--start", "--rate"], 3, 3)?;
    let (start, rate) = (words.number("--start", 0)?, words.number("--rate", 8_000_000)?);
    let tolerance = if words.rest[2] == "any" { u64::MAX } else { number(words.rest[2], "TOLERANCE")? };
    if words.rest[0] == "-" && words.rest[1] == "-" {
        return Err(Failure::Use("LOG and RECORDS cannot both be standard input".into()));
    }
    let text = read(words.rest[0])?;
    let log = match words.option("--format") {
        None | Some("entries") => text,
        Some("avr") => entries_of(&text, start, rate).map_err(|e| e.of_file(words.rest[0]))?,
        Some(other) => return Err(Failure::Use(format!("--format is entries or avr, and not {other}"))),
    };
    let records = read(words.rest[1])?;
    let heard = compare_log(&log, &records, tolerance).map_err(|(number, value)| {
        let (log_name, records_name) = (words.rest[0], words.rest[1]);
        match number {
            LENGTH_REFUSED if log.len() % ENTRY_LEN != 0 => refused_length("entries", ENTRY_LEN).of_file(log_name),
            LENGTH_REFUSED => refused_length("records", RECORD_LEN).of_file(records_name),
            LOG_REFUSED => refused(number, value, 0).of_file(log_name),
            _ => refused(number, value, 0).of_file(records_name),
        }
    })?;
    let mut out = format!("pairs {}\nunheard {}\nunsent {}\n", heard.pairs, heard.unheard, heard.unsent);
    out += &list("unheard: record, first sample, type, message", &heard.owners, |j| {
        let r = &records[RECORD_LEN * j..];
        format!("{:>16} {} {}", u64_of(&r[40..]), r[48], message_text(&r[51..]))
    });
    out += &list("unsent: entry, sample, message", &heard.partners, |i| {
        let e = &log[ENTRY_LEN * i..];
        format!("{:>16}   {}", u64_of(e), message_text(&e[8..]))
    });
    print(&out)
}
