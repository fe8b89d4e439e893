//! Durations, lengths, Mode A/C replies and pulse maps, by the reference's functions.

use reference::mode_ac::ModeACReply;
use reference::mode_s::ModeSMessage;
use reference::simulation::pulse_shape::required_samples_for_apply;
use reference::simulation::{SSRReply, duration_as_samples, message_num_samples, open};
use std::time::Duration;

const PRIME: u64 = 4_294_967_291;

/// What the program must print.
pub fn lines() -> Vec<u8> {
    let mut text = String::new();
    for (seconds, nanoseconds) in [
        (0, 124),
        (0, 125),
        (562_949_953, 421_312_124),
        (562_949_953, 421_312_125),
        (12_345, 999_999_999),
        (0, 1_000_000_000),
    ] {
        text += &samples(seconds, nanoseconds);
    }
    text += &format!("{}\n", required_samples_for_apply(240));
    for m in [
        mode_s([0; 14], true),
        mode_s([0; 14], false),
        mode_ac(0, false),
        mode_ac(0, true),
    ] {
        text += &format!("{}\n", message_num_samples(&m));
    }
    text += &built(ModeACReply::from_abcd(7, 0, 0, 0, false).ok());
    text += &built(ModeACReply::from_abcd(7, 0, 0, 8, false).ok());
    text += &built(ModeACReply::from_abcd(1, 2, 3, 4, true).ok());
    text += &built(ModeACReply::new(4095, false).ok());
    text += &built(ModeACReply::new(4096, false).ok());
    text += &positions(&mode_ac(3584, false));
    text += &positions(&mode_ac(4095, true));
    for spi in [false, true] {
        let h = (0..4096).fold(0, |h, data| digest(h, &mode_ac(data, spi)));
        text += &format!("4096 {h}\n");
    }
    for long in [false, true] {
        for bytes in [[0; 14], message(1), message(2)] {
            text += &map(&mode_s(bytes, long));
        }
        let h = (0..1000).fold(0, |h, seed| digest(h, &mode_s(message(seed), long)));
        text += &format!("{h}\n");
    }
    text.into_bytes()
}

fn samples(seconds: u64, nanoseconds: u32) -> String {
    if nanoseconds >= 1_000_000_000 {
        return "refused 1\n".into();
    }
    match duration_as_samples(Duration::new(seconds, nanoseconds)) {
        n if n > 1 << 52 => "refused 1\n".into(),
        n => format!("{n}\n"),
    }
}

fn built(reply: Option<ModeACReply>) -> String {
    reply.map_or("refused 10\n".into(), |r| {
        format!("{} {}\n", r.data(), u8::from(r.spi()))
    })
}

fn positions(m: &SSRReply) -> String {
    let on = open::pulses(m);
    let text: String = (0..on.len())
        .filter(|&k| on[k])
        .map(|k| format!("{k} "))
        .collect();
    text + "\n"
}

fn map(m: &SSRReply) -> String {
    let text: String = open::pulses(m)
        .iter()
        .map(|&on| if on { '1' } else { '0' })
        .collect();
    text + "\n"
}

/// A number that depends on the length of a map and on all 240 positions.
fn digest(h: u64, m: &SSRReply) -> u64 {
    let mut on = open::pulses(m);
    let h = (h * 256 + on.len() as u64) % PRIME;
    on.resize(240, false);
    on.iter().fold(h, |h, &on| (h * 2 + u64::from(on)) % PRIME)
}

fn mode_ac(data: u16, spi: bool) -> SSRReply {
    SSRReply::ModeAC(ModeACReply::new(data, spi).unwrap())
}

fn mode_s(bytes: [u8; 14], long: bool) -> SSRReply {
    SSRReply::ModeS(match long {
        true => ModeSMessage::Long(bytes),
        false => ModeSMessage::Short(bytes[..7].try_into().unwrap()),
    })
}

fn message(seed: u64) -> [u8; 14] {
    let mut s = seed;
    std::array::from_fn(|_| {
        s = (s * 1_103_515_245 + 12_345) % 2_147_483_648;
        (s / 65_536 % 256) as u8
    })
}
