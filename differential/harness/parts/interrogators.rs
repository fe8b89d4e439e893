//! Which interrogator a message answers, against a second routine: a table of the codes by CL and IC, and the Rust's parity.

use super::port::more1090_generator::interrogator_into;
use crate::parts::replies;
use crate::random::Random;
use crate::tally::Tally;
use crate::{judge, make};
use reference::mode_s::CRC24;

const NONE: (u32, u32) = (0, 0);
const UNASSIGNED: (u32, u32) = (3, 0);

pub fn compare(t: &mut Tally, r: &mut Random, count: u64) {
    every_overlay(t, r);
    for _ in 0..count / 4 {
        any_bytes(t, r);
    }
    made(t, r, count / 4);
    let fixed: [(&[u8], (u32, u32)); 5] = [
        (&[0x58, 0, 0, 0, 0xe0, 0xef, 0x0d], (1, 0)),
        (&[0x58, 0, 0, 0, 0xe0, 0xef, 0x1d], UNASSIGNED),
        (&[0x58, 0, 0, 0, 0xe0, 0xef, 0x1c], (2, 1)),
        (&[0x58, 0, 0, 0, 0xe0, 0xef, 0x8d], UNASSIGNED),
        (&[0x58, 0, 0, 0, 0, 0, 0, 0, 0, 0, 0, 0, 0, 0], NONE),
    ];
    for (message, expected) in fixed {
        t.alike("interrogator", message, expected, ours(message));
    }
}

/// Kind and code. What was in the code's place must not stay.
fn ours(message: &[u8]) -> (u32, u32) {
    let mut code = u32::MAX;
    let kind = interrogator_into(message, &mut code);
    (kind, code)
}

/// The seven bits of an overlay are CL, three bits, and IC, four bits. CL 0 has the II code IC. CL 1 to 4 have the SI codes
/// IC, 16 + IC, 32 + IC and 48 + IC, of which 0 is none.
fn by_cl_and_ic(overlay: u32) -> (u32, u32) {
    let (cl, ic) = (overlay >> 4, overlay & 15);
    match cl {
        0 => (1, ic),
        1..=4 if (cl, ic) != (1, 0) => (2, (cl - 1) << 4 | ic),
        _ => UNASSIGNED,
    }
}

fn expected(message: &[u8]) -> (u32, u32) {
    if message.len() != 7 || message[0] >> 3 != 0b01011 {
        return NONE;
    }
    let last = u32::from_be_bytes([0, message[4], message[5], message[6]]);
    by_cl_and_ic(last ^ CRC24.checksum(&message[..4]))
}

fn with_overlay(r: &mut Random, overlay: u32) -> [u8; 7] {
    let bytes: [u8; 14] = r.bytes();
    let mut message = [11 << 3 | bytes[0] & 7, bytes[1], bytes[2], bytes[3], 0, 0, 0];
    let last = CRC24.checksum(&message[..4]) ^ overlay;
    message[4..].copy_from_slice(&last.to_be_bytes()[1..]);
    message
}

/// Overlays 0 to 255, those of one bit, and any of 24 bits.
fn every_overlay(t: &mut Tally, r: &mut Random) {
    let mut unassigned = 0;
    for overlay in (0..256).chain((0..24).map(|k| 1 << k)).chain([65_537, 0xff_ffff]) {
        let message = with_overlay(r, overlay);
        t.alike("interrogator of an overlay", overlay, by_cl_and_ic(overlay), ours(&message));
        unassigned += u32::from((1..128).contains(&overlay) && ours(&message) == UNASSIGNED);
    }
    // The powers of two from 1 to 64 come twice; all of these are assigned but 16.
    t.alike("unassigned overlays from 1 to 127", 0, 49 + 1, unassigned);
}

/// Bytes of any number up to 20, half of them seven, half of those of DF 11.
fn any_bytes(t: &mut Tally, r: &mut Random) {
    let length = if r.once_in(2) { 7 } else { r.below(21) };
    let mut message: Vec<u8> = (0..length).map(|_| r.word() as u8).collect();
    if length > 0 && r.once_in(2) {
        message[0] = 11 << 3 | message[0] & 7;
    }
    if length == 7 && r.once_in(2) {
        let bits = r.below(25);
        let overlay = r.below(1 << bits) as u32;
        message.copy_from_slice(&with_overlay(r, overlay));
    }
    t.alike("interrogator of any bytes", &message, expected(&message), ours(&message));
}

/// Made messages: an all-call as its overlay, an acquisition squitter II 0, and nothing else.
fn made(t: &mut Tally, r: &mut Random, count: u64) {
    lent::lend_taps(&make::worked().taps, 0.5);
    let mut done = 0;
    while done < count {
        let s = replies::plain_settings(r);
        let all = judge::distributions(&s).expect("constants of 0");
        for d in make::draws(r, &s, 6000) {
            done += 1;
            let message = judge::message_bytes(&judge::config(&d, 0.0, all).message);
            let expected = match d.kind {
                1 => (1, 0),
                3 => by_cl_and_ic(u32::from(d.overlay)),
                _ => NONE,
            };
            t.alike("interrogator of a made message", d, expected, ours(&message));
        }
    }
}
