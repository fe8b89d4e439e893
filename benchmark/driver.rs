//! Times the published Rust and the port on the same draws, taps and noise, and prints a table. Both run in this program;
//! what they are fed is made before the clock starts, and their samples are compared bit by bit first.

mod loads;
mod ours;
mod random;
mod theirs_at_4 {
    use reference as published;
    include!("theirs.rs");
}
mod theirs_at_8 {
    use reference_eight as published;
    include!("theirs.rs");
}
mod theirs {
    use super::ours::SamplesPerPulse::{Eight, Four};
    use super::{Given, Load, theirs_at_4, theirs_at_8};

    pub fn open(load: &Load) {
        match load.setting {
            Four => theirs_at_4::open(load),
            Eight => theirs_at_8::open(load),
        }
    }

    pub fn run(load: &Load, batch: usize, check: bool) -> (Given, f64) {
        match load.setting {
            Four => theirs_at_4::run(load, batch, check),
            Eight => theirs_at_8::run(load, batch, check),
        }
    }
}

use loads::Load;
use ours::SamplesPerPulse;

/// Samples in a run call of the port, and in a batch of the Rust.
const CALLS: [usize; 3] = [64, 4_096, 65_536];

/// The Rust has its own sine, as published, and not that of SPECIFICATION 6.11.
const OWN_SINE: bool = cfg!(own_sine);

/// Replies a second.
const RATES: [f64; 3] = [0.0, 4_000.0, 40_000.0];

const SETTINGS: [SamplesPerPulse; 2] = [SamplesPerPulse::Four, SamplesPerPulse::Eight];

/// A sum of the samples' bits that depends on their order.
pub fn summed(sum: u64, samples: &[f32]) -> u64 {
    samples.iter().fold(sum, |sum, x| sum.rotate_left(1) ^ u64::from(x.to_bits()))
}

/// What a run gave, for comparison: its samples, their sum, and its records.
#[derive(Debug, Default, PartialEq)]
pub struct Given {
    pub samples: u64,
    pub sum: u64,
    pub records: u64,
}

#[repr(C)]
struct Timespec {
    seconds: i64,
    nanoseconds: i64,
}

unsafe extern "C" {
    fn clock_gettime(clock: i32, time: *mut Timespec) -> i32;
}

/// Processor time of this process, which other programs on the machine disturb least.
fn clock() -> f64 {
    const CLOCK_PROCESS_CPUTIME_ID: i32 = 2;
    let mut t = Timespec {
        seconds: 0,
        nanoseconds: 0,
    };
    unsafe { clock_gettime(CLOCK_PROCESS_CPUTIME_ID, &mut t) };
    t.seconds as f64 + 1e-9 * t.nanoseconds as f64
}

/// What f gives, and how long it took.
pub fn timed<T>(f: impl FnOnce() -> T) -> (T, f64) {
    let begin = clock();
    let given = f();
    (given, clock() - begin)
}

fn median(mut times: Vec<f64>) -> f64 {
    times.sort_by(f64::total_cmp);
    times[times.len() / 2]
}

/// The medians of two times, each taken in turn.
fn both(turns: usize, mut one: impl FnMut() -> f64, mut other: impl FnMut() -> f64) -> [f64; 2] {
    let (mut a, mut b) = (Vec::new(), Vec::new());
    for _ in 0..turns {
        a.push(one());
        b.push(other());
    }
    [median(a), median(b)]
}

fn compare(load: &Load, call: usize) {
    let [a, b] = [theirs::run(load, call, true).0, ours::run(load, call, true).0];
    if a != b {
        let (per_pulse, rate) = (load.setting as u8, load.rate);
        println!("{per_pulse} samples per pulse, {rate} replies a second, calls of {call}: the Rust gave {a:x?}, the port {b:x?}");
        std::process::exit(1);
    }
}

fn number(words: &[String], at: usize, otherwise: usize) -> usize {
    words.get(at).map_or(otherwise, |w| w.parse().expect("a number of seconds, then of turns"))
}

/// The times of both for each size of a call, in nanoseconds a sample.
fn rows(setting: SamplesPerPulse, rate: f64, length: usize, turns: usize) -> Vec<[f64; 2]> {
    let load = Load::new(setting, rate, length);
    let per = 1e9 / load.samples() as f64;
    let row = |&call: &usize| {
        if !OWN_SINE {
            compare(&load, call);
        }
        both(turns, || theirs::run(&load, call, false).1, || ours::run(&load, call, false).1).map(|time| time * per)
    };
    CALLS.iter().map(row).collect()
}

fn main() {
    let words: Vec<String> = std::env::args().collect();
    let (length, turns) = (number(&words, 1, 10), number(&words, 2, 5));
    println!("{length} s of signal at 4 samples per pulse, 8 million a second, and at 8, 16 million: processor time in ns a sample, medians");
    println!("of {turns} runs, the two in turn, opening apart. A call of the port writes so many samples; the Rust's batch is of the same size,");
    println!("and the Rust at 8 is that with the constants of 8 (differential/CHANGES.md).");
    println!("The Rust copies 1,094 samples for each batch, 2,187 at 8, so the last columns have the port against its best batch.");
    if OWN_SINE {
        println!("The Rust has its own sin_cos here, so that samples differ by 2^-23 and are not compared.");
    } else {
        println!("Both have the sine of SPECIFICATION 6.11, and the samples and the number of records are the same, bit for bit.");
    }
    println!();
    println!("{:16}{:>34}{:>34}", "", "at 4 samples per pulse", "at 8 samples per pulse");
    println!("replies/s   call    Rust    port   ratio   to best    Rust    port   ratio   to best");
    for rate in RATES {
        let all = SETTINGS.map(|setting| rows(setting, rate, length, turns));
        let bests = all.each_ref().map(|rows| rows.iter().map(|r| r[0]).fold(f64::INFINITY, f64::min));
        for (k, call) in CALLS.iter().enumerate() {
            print!("{rate:9} {call:6}");
            for (rows, best) in all.iter().zip(bests) {
                let [a, b] = rows[k];
                print!(" {a:7.2} {b:7.2} {:7.2} {:9.2}", b / a, b / best);
            }
            println!();
        }
    }
    println!("\na rack of sixteen feeds, in ns a sample of the run:");
    const SAMPLES: usize = 1 << 21;
    for call in CALLS {
        let times = (0..turns).map(|_| ours::rack(SAMPLES, call)).collect();
        println!("{:16} {:7.2}", call, median(times) * 1e9 / SAMPLES as f64);
    }
    for setting in SETTINGS {
        let load = Load::new(setting, RATES[1], 1);
        let [a, b] = both(101, || timed(|| theirs::open(&load)).1, || timed(|| ours::open(&load)).1).map(|time| time * 1e6);
        println!("\nopening at {}, in microseconds: Rust {a:.0}, port {b:.0}, ratio {:.2}", setting as u8, b / a);
    }
}
