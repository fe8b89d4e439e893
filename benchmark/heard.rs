//! A log held against records: the seconds that `more1090_compare_log` takes on a long run.
//!
//! `heard [RECORDS]`: RECORDS records (10,000,000) in a run's order, with first samples that fall by at most 32. Nine in ten are
//! heard, some samples later, and one entry in ten was not sent. One line for each mean gap between replies and tolerance.
#![allow(dead_code)]
#[path = "../hosts/rust/more1090_generator.rs"]
mod more1090_generator;
mod random;

use more1090_generator::{ENTRY_LEN, RECORD_LEN, compare_log_into};
use random::Random;
use std::time::Instant;

impl Random {
    fn below(&mut self, n: u64) -> u64 {
        self.next() % n
    }
}

/// A message of seven bytes of one of a thousand aircraft.
fn message(r: &mut Random) -> [u8; 7] {
    let [a, b, ..] = r.below(1000).to_le_bytes();
    [0x5d, 0x48, b, a, r.below(4) as u8, 0, 0]
}

fn lists(count: u64, gap: u64) -> (Vec<u8>, Vec<u8>) {
    let mut r = Random(1);
    let mut records = vec![0; count as usize * RECORD_LEN];
    let mut log = Vec::with_capacity(count as usize * ENTRY_LEN);
    let (mut at, mut last) = (32, 0);
    for record in records.chunks_exact_mut(RECORD_LEN) {
        at += r.below(2 * gap + 1);
        let first = at - r.below(33);
        let bytes = message(&mut r);
        record[40..48].copy_from_slice(&first.to_le_bytes());
        record[48] = 2;
        record[51] = 7;
        record[52..59].copy_from_slice(&bytes);
        let heard = if r.below(10) > 0 { bytes } else { message(&mut r) };
        last = last.max(first + r.below(5));
        log.extend_from_slice(&last.to_le_bytes());
        log.push(7);
        log.extend_from_slice(&heard);
        log.extend_from_slice(&[0; 7]);
    }
    (log, records)
}

fn main() {
    let count = std::env::args().nth(1).map_or(10_000_000, |w| w.parse().expect("a number of records"));
    for (gap, tolerances) in [(69_120, [40, 80_000, 8_000_000]), (200, [40, 2_000, 80_000])] {
        let (log, records) = lists(count, gap);
        let (mut partners, mut owners) = (vec![0; count as usize], vec![0; count as usize]);
        for tolerance in tolerances {
            let began = Instant::now();
            let r = compare_log_into(&log, &records, tolerance, &mut partners, &mut owners);
            let seconds = began.elapsed().as_secs_f64();
            println!("{count} entries, {count} records, {gap} samples apart, tolerance {tolerance}: {} pairs, {seconds:.2} s", r.pairs);
            assert!(r.refusal == 0);
        }
    }
}
