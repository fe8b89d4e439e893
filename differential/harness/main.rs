//! The differential harness; README.md says what compares what.
// What is shared with the other program, parts.rs, is used in part.
#![allow(dead_code)]

mod bench;
mod calls;
mod checks;
mod damage;
mod findings;
mod judge;
mod make;
mod ours;
mod program;
mod random;
mod rules;
mod stored;
mod tally;
mod tape;
mod vectors;

use ours::Ours;
use random::Random;
use std::io::Read;
use std::path::PathBuf;
use tally::Tally;

fn main() {
    // The reference's panics are answers here; they are told where they are counted.
    std::panic::set_hook(Box::new(|_| {}));
    let words: Vec<String> = std::env::args().skip(1).collect();
    let code = match words.first().map(String::as_str) {
        Some("text") => text(),
        Some("samples") => made(|run| tally::bytes_of(&run.samples)),
        Some("records") => made(|run| run.records),
        Some("tape") => write_tape(&words[1..]),
        Some("vectors") if words.len() == 2 && tape::SPP == 4 => vectors::write(&PathBuf::from(&words[1])),
        _ => compare(&words),
    };
    std::process::exit(code);
}

fn standard_input() -> Vec<u8> {
    let mut bytes = Vec::new();
    std::io::stdin()
        .read_to_end(&mut bytes)
        .expect("standard input can be read");
    bytes
}

/// `harness text`: what the tape program must print for the tape on standard input.
fn text() -> i32 {
    print!("{}", program::text(&program::outcome(&standard_input())));
    0
}

/// `harness samples` and `harness records`: the reference's samples for the tape on standard input, as pairs of little-endian
/// f32, or its records.
fn made(bytes: fn(judge::Run) -> Vec<u8>) -> i32 {
    use std::io::Write;
    let program::Outcome::Run(run) = program::outcome(&standard_input()) else {
        eprintln!("the tape is refused");
        return 1;
    };
    std::io::stdout()
        .write_all(&bytes(run))
        .expect("standard output can be written");
    0
}

/// `harness tape worked` or `harness tape SEED INDEX`: writes that tape to standard output.
fn write_tape(words: &[String]) -> i32 {
    let tape = match words {
        [w] if w == "worked" => make::worked(),
        [seed, index] => make::tape(&mut tape_source(number(seed), number(index))),
        _ => {
            eprintln!("usage: harness tape worked | harness tape SEED INDEX");
            return 2;
        }
    };
    use std::io::Write;
    std::io::stdout()
        .write_all(&tape.to_bytes())
        .expect("standard output can be written");
    0
}

fn number(word: &str) -> u64 {
    word.parse().unwrap_or_else(|_| {
        eprintln!("not a number: {word}");
        std::process::exit(2)
    })
}

/// The source of random numbers of one tape of a run.
fn tape_source(seed: u64, index: u64) -> Random {
    Random::new(seed.wrapping_mul(0x2545_f491_4f6c_dd1d).wrapping_add(index))
}

struct Options {
    count: u64,
    seed: u64,
    ours: Ours,
    folder: PathBuf,
    vectors: Option<PathBuf>,
}

/// `[COUNT] [SEED] [--ours PROGRAM] [--ours-calls PROGRAM] [--vectors ROOT] [--keep FOLDER]`
fn options(words: &[String]) -> Options {
    let mut o = Options {
        count: 1000,
        seed: 1,
        ours: Ours {
            tape: None,
            calls: None,
        },
        folder: PathBuf::from("differences"),
        vectors: None,
    };
    let mut plain = Vec::new();
    let mut rest = words.iter();
    while let Some(w) = rest.next() {
        let mut value = || PathBuf::from(rest.next().expect("a value after the option"));
        match w.as_str() {
            "--ours" => o.ours.tape = Some(value()),
            "--ours-calls" => o.ours.calls = Some(value()),
            "--keep" => o.folder = value(),
            "--vectors" => o.vectors = Some(value()),
            _ => plain.push(number(w)),
        }
    }
    o.count = plain.first().copied().unwrap_or(o.count);
    o.seed = plain.get(1).copied().unwrap_or(o.seed);
    o
}

fn compare(words: &[String]) -> i32 {
    let o = options(words);
    let mut tally = Tally::new(o.folder.clone());
    if let Some(root) = &o.vectors {
        vectors::compare(&mut tally, root);
    }
    checks::worked(&mut tally, &o.ours);
    checks::bench_lines(&mut tally, &o.ours);
    if tape::SPP == 4 {
        checks::findings(&mut tally);
        checks::sines(&mut tally, &mut tape_source(o.seed, u64::MAX));
    }
    let wanted = damage::share(o.count, o.seed, damage::User::Texts);
    checks::damaged(&mut tally, &o.ours, &make::worked(), "worked", &wanted);
    checks::damaged(&mut tally, &o.ours, &make::worked_drawn(), "worked, drawn", &wanted);
    for index in 0..o.count {
        let seed = format!("{} {index}", o.seed);
        checks::tape(&mut tally, &o.ours, &mut tape_source(o.seed, index), &seed);
        if (index + 1) % 250 == 0 {
            let (n, wrong) = tally.totals();
            println!(
                "{} of {} tapes at {}, {n} comparisons, {wrong} differences",
                index + 1,
                o.count,
                tape::SPP
            );
        }
    }
    tally.print();
    let (n, wrong) = tally.totals();
    println!(
        "largest distance of the sine steps from sin_cos: {:e}",
        lent::largest_distance()
    );
    println!("tapes at {} samples per pulse: {n} comparisons, {wrong} differences", tape::SPP);
    i32::from(wrong > 0)
}
