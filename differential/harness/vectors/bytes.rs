//! Reads and writes of little-endian numbers and floats, by Rust's `from_le_bytes` and `to_le_bytes`.

use crate::tally::{pattern32, pattern64};

/// Quiet, signalling and negative NaNs, infinities, zeros, subnormals, and plain values.
pub fn input() -> Vec<u8> {
    let f64s: [u64; 11] = [
        0x7ff8_0000_0000_0000,
        0x7ff0_0000_0000_0001,
        0xfff0_0000_0000_0001,
        0xffff_ffff_ffff_ffff,
        f64::INFINITY.to_bits(),
        f64::NEG_INFINITY.to_bits(),
        (-0.0f64).to_bits(),
        1,
        0x800f_ffff_ffff_ffff,
        f64::MAX.to_bits(),
        (-std::f64::consts::PI).to_bits(),
    ];
    let f32s: [u32; 11] = [
        0x7fc0_0000,
        0x7f80_0001,
        0xff80_0001,
        0xffff_ffff,
        f32::INFINITY.to_bits(),
        f32::NEG_INFINITY.to_bits(),
        (-0.0f32).to_bits(),
        1,
        0x807f_ffff,
        f32::MAX.to_bits(),
        (-std::f32::consts::PI).to_bits(),
    ];
    let mut b = Vec::new();
    b.extend(f64s.iter().flat_map(|x| x.to_le_bytes()));
    b.extend(f32s.iter().flat_map(|x| x.to_le_bytes()));
    b.extend((0u8..12).map(|k| 0x10 * k + 0x0f - k));
    b
}

/// A line for the reads and one for the writes at each offset, and at the last nine that a usize can name.
pub fn lines() -> Vec<u8> {
    let s = input();
    let mut text = String::new();
    for at in 0..=s.len() {
        text += &(reads(&s, at) + &writes(&s, at, at % 13));
    }
    for k in 0..9 {
        text += &(reads(&s, usize::MAX - k) + &writes(&s, 8 * k, usize::MAX - k));
    }
    text.into_bytes()
}

fn part<const N: usize>(s: &[u8], at: usize) -> Option<[u8; N]> {
    let end = at.checked_add(N)?;
    s.get(at..end)?.try_into().ok()
}

fn reads(s: &[u8], at: usize) -> String {
    let past = || "past".to_string();
    let u16v = part(s, at).map(u16::from_le_bytes);
    let u32v = part(s, at).map(u32::from_le_bytes);
    let u64v = part(s, at).map(u64::from_le_bytes);
    let f32v = part(s, at).map(f32::from_le_bytes);
    let f64v = part(s, at).map(f64::from_le_bytes);
    let nan = || "nan".to_string();
    let f32s = f32v.map_or_else(past, |x| {
        if x.is_nan() {
            nan()
        } else {
            format!("{:08x}", x.to_bits())
        }
    });
    let f64s = f64v.map_or_else(past, |x| {
        if x.is_nan() {
            nan()
        } else {
            format!("{:016x}", x.to_bits())
        }
    });
    format!(
        "read {:016x} {} {} {} {} {} {:04x} {:08x} {:016x} {:08x} {:016x}\n",
        at,
        u16v.map_or_else(past, |n| format!("{n:04x}")),
        u32v.map_or_else(past, |n| format!("{n:08x}")),
        u64v.map_or_else(past, |n| format!("{n:016x}")),
        f32s,
        f64s,
        u16v.unwrap_or(0),
        u32v.unwrap_or(0),
        u64v.unwrap_or(0),
        pattern32(f32v.unwrap_or(0.0)),
        pattern64(f64v.unwrap_or(0.0)),
    )
}

fn wrote(at: usize, bytes: &[u8]) -> String {
    let mut d = [0xa5u8; 12];
    let to = at.checked_add(bytes.len()).and_then(|end| d.get_mut(at..end));
    let fits = to.is_some();
    if let Some(to) = to {
        to.copy_from_slice(bytes);
    }
    let low = u64::from_le_bytes(d[..8].try_into().unwrap());
    let high = u32::from_le_bytes(d[8..].try_into().unwrap());
    format!(" {} {low:016x} {high:08x}", if fits { "fits" } else { "past" })
}

fn writes(s: &[u8], from: usize, at: usize) -> String {
    let f32v = part(s, from).map_or(0.0, f32::from_le_bytes);
    let f64v = part(s, from).map_or(0.0, f64::from_le_bytes);
    let mut line = format!("write {from:016x} {at:016x}");
    line += &wrote(at, &part(s, from).map_or(0, u16::from_le_bytes).to_le_bytes());
    line += &wrote(at, &part(s, from).map_or(0, u32::from_le_bytes).to_le_bytes());
    line += &wrote(at, &part(s, from).map_or(0, u64::from_le_bytes).to_le_bytes());
    line += &wrote(at, &pattern32(f32v).to_le_bytes());
    line += &wrote(at, &pattern64(f64v).to_le_bytes());
    line + "\n"
}
