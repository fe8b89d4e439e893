//! Flipped bits: the change in parity from a bit's place, the place from a change, and messages laid over each other.

use super::port::more1090_generator::{flipped_bit, parity, parity_change};
use crate::random::Random;
use crate::tally::Tally;
use reference::mode_s::{CRC24, single_bit_error_from_crc24};

pub fn compare(t: &mut Tally, r: &mut Random, count: u64) {
    for _ in 0..count / 4 {
        flipped(t, r);
        laid(t, r);
        beyond(t, r.word());
        place(t, r.word() as u32);
        place(t, r.below(1 << 24) as u32);
    }
    for near in [112, 113, 255, 256, 256 + 55, 1 << 16, 1 << 32, u64::MAX] {
        beyond(t, near);
    }
    for length in 0..=64 {
        t.alike("parity of zero bytes", length, 0, parity(&vec![0; length]));
    }
    every_place(t);
    // Twenty seconds: for a long run.
    if count >= 200_000 {
        every_change(t);
    }
}

/// Our place of a change; the largest number for none.
fn place_of(change: u32) -> u64 {
    flipped_bit(change).unwrap_or(u64::MAX)
}

/// The Rust's place of a change: it counts from the first bit of a long message, we back from the last.
fn place_by_the_rust(change: u32) -> u64 {
    single_bit_error_from_crc24(change).map_or(u64::MAX, |position| 111 - u64::from(position))
}

/// A message of either length, and the same with one bit flipped.
fn flipped(t: &mut Tally, r: &mut Random) {
    let length = r.pick(&[7, 14]);
    let mut bytes: Vec<u8> = (0..length).map(|_| r.word() as u8).collect();
    let before = CRC24.checksum(&bytes);
    let place = r.below(8 * length);
    bytes[length - 1 - place / 8] ^= 1 << (place % 8);
    let ours = parity_change(place as u64);
    t.alike("change of a flipped bit", place, before ^ CRC24.checksum(&bytes), ours);
    t.alike("parity by its C name", &bytes, CRC24.checksum(&bytes), parity(&bytes));
}

/// Two messages of one length, laid over each other.
fn laid(t: &mut Tally, r: &mut Random) {
    let length = r.below(41);
    let (a, b): (Vec<u8>, Vec<u8>) = (0..length).map(|_| (r.word() as u8, r.word() as u8)).unzip();
    let both: Vec<u8> = a.iter().zip(&b).map(|(x, y)| x ^ y).collect();
    t.alike("parity of two laid over each other", length, CRC24.checksum(&both), parity(&a) ^ parity(&b));
}

/// No bit stands above place 111.
fn beyond(t: &mut Tally, place: u64) {
    if place > 111 {
        t.alike("change above place 111", place, 0, parity_change(place));
    }
}

fn place(t: &mut Tally, change: u32) {
    t.alike("place of a change", change, place_by_the_rust(change), place_of(change));
}

/// The 112 places, there and back, and numbers near their changes.
fn every_place(t: &mut Tally) {
    for p in 0..112_u64 {
        let change = parity_change(p);
        let position = single_bit_error_from_crc24(change).map(u64::from);
        t.alike("position of a change", p, Some(111 - p), position);
        t.alike("place back from its change", p, p, place_of(change));
        for bit in 0..32 {
            place(t, change ^ 1 << bit);
        }
    }
    for change in [0, 1 << 24, u32::MAX] {
        place(t, change);
    }
}

/// Every number of 24 bits, as one comparison.
fn every_change(t: &mut Tally) {
    let wrong = (0..1 << 24).find(|&c| place_by_the_rust(c) != place_of(c));
    t.alike("places of all numbers of 24 bits", 0, None, wrong);
}
