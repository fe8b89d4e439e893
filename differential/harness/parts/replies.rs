//! The crates of replies: parity, making, classing, pulse maps, lengths and durations.

use super::port::more1090_generator::class_number;
use crate::random::Random;
use crate::tally::Tally;
use crate::tape::{Draw, Settings};
use crate::{judge, make, rules};
use reference::mode_ac::ModeACReply;
use reference::mode_s::{CRC24, ModeSMessage};
use reference::simulation::pulse_shape::required_samples_for_apply;
use reference::simulation::{MessageType, SSRReply, duration_as_samples, message_num_samples, open};
use std::time::Duration;

unsafe extern "C" {
    fn port_parity(bytes: *const u8, length: usize) -> u32;
    safe fn port_make(
        kind: u8,
        df: u8,
        ca: u8,
        overlay: u8,
        draw: &[u8; 14],
        data: u16,
        spi: u8,
        made: &mut u8,
        out: &mut [u8; 14],
    ) -> u64;
    safe fn port_from_message(kind: u8, message: &[u8; 14]) -> u8;
    safe fn port_mode_s_pulses(
        message: &[u8; 14],
        long: bool,
        on: &mut [bool; 240],
        samples: &mut usize,
    ) -> usize;
    safe fn port_mode_ac_pulses(data: u16, spi: bool, on: &mut [bool; 240], samples: &mut usize) -> usize;
    safe fn port_reply_limit() -> u64;
    safe fn port_duration_as_samples(seconds: u64, nanoseconds: u32) -> u64;
}

pub fn compare(t: &mut Tally, r: &mut Random, count: u64) {
    for _ in 0..count / 4 {
        parity(t, r);
        class(t, r);
        duration(t, r);
    }
    made(t, r, count / 4);
    every_first_byte(t, r);
    every_mode_ac(t);
    for n in 0..=240 {
        t.alike(
            "required_samples_for_apply",
            n,
            required_samples_for_apply(n),
            required_by_rule(n),
        );
    }
    t.alike(
        "limit of a reply",
        240,
        required_samples_for_apply(240),
        port_reply_limit() as usize,
    );
}

/// The definition of the port, in whole numbers: six more pulses than there are, at 4 / 0.9 samples each, rounded up.
fn required_by_rule(pulses: usize) -> usize {
    if pulses == 0 { 0 } else { ((pulses + 6) * 40).div_ceil(9) }
}

fn parity(t: &mut Tally, r: &mut Random) {
    let length = r.pick(&[0, 1, 4, 7, 11, 14, 40]);
    let bytes: Vec<u8> = (0..length).map(|_| r.word() as u8).collect();
    let ours = unsafe { port_parity(bytes.as_ptr(), bytes.len()) };
    t.alike("parity", &bytes, CRC24.checksum(&bytes), ours);
}

/// Bytes of any format, as a message of both lengths, half of those of DF 11 with the right parity.
fn class(t: &mut Tally, r: &mut Random) {
    let mut long: [u8; 14] = r.bytes();
    if r.once_in(4) {
        long[0] = 11 << 3 | long[0] & 7;
    }
    if r.once_in(2) {
        let p = CRC24.checksum(&long[..4]).to_be_bytes();
        long[4..7].copy_from_slice(&p[1..]);
        if r.once_in(4) {
            long[6] ^= 1 << r.below(8);
        }
    }
    let short = long[..7].try_into().unwrap();
    let all = [
        SSRReply::ModeS(ModeSMessage::Short(short)),
        SSRReply::ModeS(ModeSMessage::Long(long)),
        SSRReply::ModeAC(ModeACReply::new(0, false).unwrap()),
    ];
    for (kind, m) in all.iter().enumerate() {
        classes(t, kind as u8, &long, m);
    }
}

/// The number of a type, 255 for none.
fn number(class: Option<MessageType>) -> u8 {
    MessageType::ALL
        .iter()
        .position(|t| Some(*t) == class)
        .unwrap_or(255) as u8
}

/// Classing, against the Rust once 7 is read as 0; and which answers are 7, by the bits that RTCA DO-260B names.
fn classes(t: &mut Tally, kind: u8, bytes: &[u8; 14], m: &SSRReply) {
    let ours = port_from_message(kind, bytes);
    let length = [7, 14, 2][usize::from(kind)];
    t.alike("class by its C name", (kind, bytes), ours, class_number(&bytes[..length]));
    let read = if ours == 7 { 0 } else { ours };
    t.alike("from_message, 7 read as 0", (kind, bytes), number(MessageType::from_message(m)), read);
    let relay = kind == 1 && bytes[0] >> 3 == 0b10010 && matches!(bytes[0] & 0b111, 0b010 | 0b011 | 0b101);
    t.alike("TIS-B", (kind, bytes), relay, ours == 7);
    if relay {
        t.see("class 7");
    }
}

/// All 256 first bytes at both lengths, with the right parity and a wrong one; and every other length up to 20.
fn every_first_byte(t: &mut Tally, r: &mut Random) {
    for first in 0..=255 {
        let mut long: [u8; 14] = r.bytes();
        long[0] = first;
        for wrong in [0, 1] {
            for end in [4, 11] {
                let p = CRC24.checksum(&long[..end]).to_be_bytes();
                long[end..end + 3].copy_from_slice(&p[1..]);
                long[end + 2] ^= wrong;
            }
            let short = long[..7].try_into().unwrap();
            classes(t, 0, &long, &SSRReply::ModeS(ModeSMessage::Short(short)));
            classes(t, 1, &long, &SSRReply::ModeS(ModeSMessage::Long(long)));
        }
        for length in (0..=20).filter(|n| ![2, 7, 14].contains(n)) {
            let mut bytes = vec![0; length];
            if let Some(b) = bytes.first_mut() {
                *b = first;
            }
            t.alike("class of another length", &bytes, 255, class_number(&bytes));
        }
    }
    let fixed: [(&[u8], u8); 2] = [(&[0x90, 0, 0, 0, 0, 0, 0], 255), (&[0x92, 0, 0, 0, 0, 0, 0, 0, 0, 0, 0, 0, 0, 0], 7)];
    for (message, class) in fixed {
        t.alike("class", message, class, class_number(message));
    }
}

fn duration(t: &mut Tally, r: &mut Random) {
    let seconds = match r.below(4) {
        0 => r.word(),
        1 => r.pick(&[0, 1, 562_949_952, 562_949_953, 562_949_954, 1 << 41, u64::MAX]),
        _ => r.word() % 562_949_960,
    };
    let nanoseconds = match r.below(4) {
        0 => r.word() as u32,
        1 => r.pick(&[
            0,
            124,
            125,
            421_312_124,
            421_312_125,
            999_999_999,
            1_000_000_000,
            u32::MAX,
        ]),
        _ => r.below(1_000_000_000) as u32,
    };
    let samples = u128::from(seconds) * 8_000_000 + u128::from(nanoseconds) / 125;
    let expected = if nanoseconds >= 1_000_000_000 || samples > 1 << 52 {
        t.see("refusal 1 of duration_as_samples");
        u64::MAX
    } else {
        duration_as_samples(Duration::new(seconds, nanoseconds))
    };
    let ours = port_duration_as_samples(seconds, nanoseconds);
    t.alike("duration_as_samples", (seconds, nanoseconds), expected, ours);
}

/// Settings that accept every type, with distributions that are constants of 0.
pub fn plain_settings(r: &mut Random) -> Settings {
    let mut s = make::settings(r, 6000);
    s.rates = [1.0; 7];
    (s.carrier.kind, s.carrier.first) = (0, 0.0);
    (s.phase.kind, s.phase.first) = (0, 0.0);
    (s.clock.kind, s.clock.first) = (0, 0.0);
    s
}

/// Draws that the settings accept, and draws with one field changed, against the functions `random_..` fed with the same
/// draw. Where a field is out of range the Rust panics, so the field is held to the rules.
fn made(t: &mut Tally, r: &mut Random, count: u64) {
    lent::lend_taps(&make::worked().taps, 0.5);
    let mut done = 0;
    while done < count {
        let s = plain_settings(r);
        let all = judge::distributions(&s).expect("constants of 0");
        for mut d in make::draws(r, &s, 6000) {
            if r.once_in(3) {
                change(r, &mut d);
            }
            done += 1;
            let mut bytes = [0xaa; 14];
            let mut kind = 0xaa;
            let fault = port_make(
                d.kind, d.df_pick, d.ca_pick, d.overlay, &d.bytes, d.data, d.spi, &mut kind, &mut bytes,
            );
            let expected = rules::field_at_fault(&s, &d);
            t.alike("field of making at fault", d, expected.unwrap_or(0), fault);
            if let Some(field) = expected {
                t.see(&format!("field {field} of making at fault"));
                t.alike("bytes beside a fault", d, ([0; 14], 0), (bytes, kind));
                continue;
            }
            let m = judge::config(&d, 0.0, all).message;
            let mut reply = judge::message_bytes(&m);
            let length = reply.len();
            reply.resize(14, 0);
            let lengths = [7, 14, 2];
            t.alike(
                "making",
                d,
                (reply.as_slice(), length),
                (&bytes, lengths[usize::from(kind)]),
            );
            classes(t, kind, &bytes, &m);
            let class = port_from_message(kind, &bytes);
            t.alike("class of a made message", d, d.kind, if class == 7 { 0 } else { class });
            t.see(&format!("type {} made", d.kind));
            pulses(t, &m);
        }
    }
}

fn change(r: &mut Random, d: &mut Draw) {
    match r.below(6) {
        0 => d.kind = r.below(9) as u8,
        1 => d.df_pick = r.below(14) as u8,
        2 => d.ca_pick = r.below(8) as u8,
        3 => d.overlay = r.pick(&[0, 1, 127, 128, 255]),
        4 => d.data = r.pick(&[0, 4095, 4096, u16::MAX]),
        _ => d.spi = r.below(4) as u8,
    }
}

/// The port's pulse map of a message: all 240 places, how many are used, and the message's length in samples.
pub fn pulses_of(m: &SSRReply) -> ([bool; 240], usize, usize) {
    // What was there must not stay.
    let mut on = [true; 240];
    let mut samples = usize::MAX;
    let length = match m {
        SSRReply::ModeS(message) => {
            let mut bytes = [0xff; 14];
            let used = message.as_slice();
            bytes[..used.len()].copy_from_slice(used);
            port_mode_s_pulses(&bytes, used.len() == 14, &mut on, &mut samples)
        }
        SSRReply::ModeAC(reply) => port_mode_ac_pulses(reply.data(), reply.spi(), &mut on, &mut samples),
    };
    (on, length, samples)
}

fn pulses(t: &mut Tally, m: &SSRReply) {
    let mut expected = open::pulses(m);
    let length = expected.len();
    expected.resize(240, false);
    let (on, ours, samples) = pulses_of(m);
    t.alike("pulses", m, (expected.as_slice(), length), (&on, ours));
    t.alike("message_num_samples", m, message_num_samples(m), samples);
}

fn every_mode_ac(t: &mut Tally) {
    for data in 0..4096 {
        for spi in [false, true] {
            let m = SSRReply::ModeAC(ModeACReply::new(data, spi).unwrap());
            pulses(t, &m);
        }
    }
}
