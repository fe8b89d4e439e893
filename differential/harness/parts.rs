//! Parts of the port against the reference, function by function: the port's static libraries (the crate `test_exports`)
//! linked into this program. A part is one file in parts/ and its two lines here.
// What is shared with the other program is used in part.
#![allow(dead_code)]

mod bench;
mod calls;
mod damage;
mod judge;
mod make;
mod random;
mod rules;
mod tally;
mod tape;
mod parts {
    pub mod booking;
    pub mod carrier;
    pub mod flips;
    pub mod floats;
    pub mod heard;
    pub mod interrogators;
    pub mod levels;
    pub mod pages;
    pub mod port;
    pub mod rack;
    pub mod replies;
    pub mod runs;
    pub mod shape;
    pub mod singles;
    pub mod starts;
}

use damage::User;
use random::Random;
use std::path::PathBuf;
use tally::Tally;

/// `parts [COUNT] [SEED] [FOLDER] [TAPES]`: COUNT arguments for each function, TAPES whole runs, lists of calls, bookings and
/// single replies at the samples per pulse of the reference that it is built with. Functions are compared at 4 alone.
fn main() {
    // The reference's panics are answers here.
    std::panic::set_hook(Box::new(|_| {}));
    let words: Vec<String> = std::env::args().skip(1).collect();
    let number = |k: usize, other: u64| words.get(k).map_or(other, |w| w.parse().expect("a number"));
    let (count, seed) = (number(0, 100_000), number(1, 1));
    let folder = words.get(2).map_or("differences", String::as_str);
    let mut tally = Tally::new(PathBuf::from(folder));
    if tape::SPP == 4 {
        functions(&mut tally, seed, count);
    }
    let tapes = number(3, 1000);
    let wanted = |user| damage::share(tapes, seed, user);
    parts::runs::compare(&mut tally, &mut Random::new(seed), tapes, &wanted(User::Runs));
    parts::booking::compare(&mut tally, &mut Random::new(seed), tapes, &wanted(User::Bookings));
    parts::singles::compare(&mut tally, &mut Random::new(seed), tapes, &wanted(User::Singles));
    tally.print();
    let (n, wrong) = tally.totals();
    println!("parts at {} samples per pulse: {n} comparisons, {wrong} differences", tape::SPP);
    std::process::exit(i32::from(wrong > 0));
}

/// Functions that know no samples per pulse, or whose C names are those at 4.
fn functions(tally: &mut Tally, seed: u64, count: u64) {
    let mut r = Random::new(seed);
    parts::floats::compare(tally, &mut r, count);
    parts::carrier::compare(tally, &mut r, count);
    parts::replies::compare(tally, &mut r, count);
    parts::flips::compare(tally, &mut Random::new(seed), count);
    parts::interrogators::compare(tally, &mut Random::new(seed), count);
    parts::levels::compare(tally, &mut Random::new(seed), count);
    parts::pages::compare(tally, &mut Random::new(seed), count);
    parts::heard::compare(tally, &mut Random::new(seed), count);
    parts::rack::compare(tally, &mut Random::new(seed), count);
    parts::shape::compare(tally, &mut r, count);
    parts::starts::compare(tally, &mut r, count);
}
