//! check SAMPLES: a small decoder, which shows that samples carry their messages. It reads cf32 at 8,000,000 samples a second (-
//! is standard input), and prints each message as an AVR line with its time. It is for strong replies that do not overlap, and no
//! measure of a receiver.
use std::collections::HashSet;
use std::io::{Read, Write};

/// Samples of 500 ns.
const PULSE: usize = 4;
const BIT: usize = 2 * PULSE;
/// Where the four pulses of a Mode S preamble begin, and where its data do.
const PREAMBLE: [usize; 4] = [0, 2 * PULSE, 7 * PULSE, 9 * PULSE];
const DATA: usize = 16 * PULSE;
/// Samples from one pulse of Mode A/C to the next, and positions of its framing pulses and of SPI.
const STEP: f64 = 1.45 * 8.0;
const SECOND_FRAME: usize = 14;
const SPI: usize = 17;
/// By how much pulses exceed what lies between them.
const CONTRAST: f32 = 3.0;
/// By how much a pulse exceeds the mean of all samples' noise.
const ABOVE_NOISE: f32 = 6.0;

fn parity(bytes: &[u8]) -> u32 {
    let shifted = |r: u32, bit: u32| if (2 * r | bit) >> 24 == 1 { (2 * r | bit) ^ 0x1ff_f409 } else { 2 * r | bit };
    let bits = bytes.iter().flat_map(|b| (0..8).rev().map(move |k| u32::from(b >> k & 1)));
    bits.chain([0; 24]).fold(0, shifted)
}

/// The parity of a message compared with its last three bytes: 0, an interrogator's code, or an address.
fn overlay(message: &[u8]) -> u32 {
    let (body, last) = message.split_at(message.len() - 3);
    parity(body) ^ u32::from_be_bytes([0, last[0], last[1], last[2]])
}

struct Signal {
    /// Sums of the power of the samples before each.
    sums: Vec<f64>,
    noise: f32,
}

impl Signal {
    fn of(bytes: &[u8]) -> Signal {
        let float = |b: &[u8]| f32::from_le_bytes([b[0], b[1], b[2], b[3]]);
        let power: Vec<f32> = bytes.chunks_exact(8).map(|s| float(&s[..4]).powi(2) + float(&s[4..]).powi(2)).collect();
        let mut sums = vec![0.0];
        for p in &power {
            sums.push(sums[sums.len() - 1] + f64::from(*p));
        }
        let mut sorted = power;
        sorted.sort_by(f32::total_cmp);
        let median = sorted.get(sorted.len() / 2).copied().unwrap_or(0.0);
        Signal { sums, noise: median }
    }

    fn len(&self) -> usize {
        self.sums.len() - 1
    }

    /// The mean power of samples from one on; 0 where they are not all there.
    fn power(&self, from: usize, count: usize) -> f32 {
        match self.sums.get(from + count) {
            Some(end) => ((end - self.sums[from]) / count as f64) as f32,
            None => 0.0,
        }
    }

    /// How clear a preamble is that begins at a sample: the weakest pulse over the strongest gap.
    fn preamble(&self, at: usize) -> Option<f32> {
        let pulses = PREAMBLE.map(|p| self.power(at + p, PULSE));
        let gap = |slot: usize| self.power(at + slot * PULSE, PULSE);
        let gaps = [1, 3, 4, 5, 6, 8, 10, 11, 12, 13, 14, 15].map(gap);
        let weakest = pulses.into_iter().fold(f32::MAX, f32::min);
        let strongest = gaps.into_iter().fold(self.noise, f32::max);
        (weakest > CONTRAST * strongest && weakest > ABOVE_NOISE * self.noise).then_some(weakest / strongest)
    }

    fn message(&self, at: usize) -> Vec<u8> {
        let bit = |n: usize| {
            let from = at + DATA + n * BIT;
            u8::from(self.power(from, PULSE) > self.power(from + PULSE, PULSE))
        };
        let byte = |k: usize| (8 * k..8 * k + 8).fold(0, |b, n| b << 1 | bit(n));
        let first = byte(0);
        let length = if first & 0x80 == 0 { 7 } else { 14 };
        (0..length).map(byte).collect()
    }

    /// Squawk and SPI of a Mode A/C reply whose first pulse begins at a sample.
    fn mode_ac(&self, at: usize) -> Option<[u8; 2]> {
        let frame = self.power(at, 3);
        let slot = |n: usize| at + (STEP * n as f64).round() as usize;
        let pulse = |n: usize| self.power(slot(n), 3);
        let quiet = |n: usize| self.power(slot(n) + 5, 5) < frame / 8.0;
        let before = if at < 8 { 0.0 } else { self.power(at - 7, 6) };
        let framed = frame > ABOVE_NOISE * self.noise
            && before < frame / 8.0
            && (0.5..2.0).contains(&(pulse(SECOND_FRAME) / frame))
            && pulse(7) < frame / 4.0
            && (0..=SECOND_FRAME).all(quiet);
        let there = |n: usize| pulse(n) > frame / 3.0;
        // C1 A1 C2 A2 C4 A4, none, B1 D1 B2 D2 B4 D4, as bits of 512 A + 64 B + 8 C + D.
        let bits = [(1, 3), (2, 9), (3, 4), (4, 10), (5, 5), (6, 11), (8, 6), (9, 0), (10, 7), (11, 1), (12, 8), (13, 2)];
        let data: u16 = bits.iter().map(|&(n, bit)| u16::from(there(n)) << bit).sum();
        framed.then(|| (data | u16::from(there(SPI)) << 12).to_be_bytes())
    }
}

/// The clearest preambles, each with its message, and the Mode A/C replies between.
fn heard(signal: &Signal) -> Vec<(usize, Vec<u8>)> {
    let mut found = Vec::new();
    let mut at = 0;
    while at < signal.len() {
        let Some(clear) = signal.preamble(at) else {
            if let Some(reply) = signal.mode_ac(at) {
                found.push((at, reply.to_vec()));
                at += (STEP * SPI as f64) as usize;
            }
            at += 1;
            continue;
        };
        // The clearest of the next few samples.
        let best = (1..PULSE).filter_map(|k| Some((signal.preamble(at + k)?, at + k)));
        let (_, best) = best.fold((clear, at), |a, b| if b.0 > a.0 { b } else { a });
        let message = signal.message(best);
        at = best + DATA + BIT * 8 * message.len();
        found.push((best, message));
    }
    found
}

fn main() {
    let name = std::env::args().nth(1).unwrap_or_else(|| "-".into());
    let mut bytes = Vec::new();
    let read = match name.as_str() {
        "-" => std::io::stdin().read_to_end(&mut bytes),
        name => std::fs::File::open(name).and_then(|mut file| file.read_to_end(&mut bytes)),
    };
    if let Err(e) = read {
        eprintln!("check: {name}: {e}");
        std::process::exit(3);
    }
    let found = heard(&Signal::of(&bytes));
    // As decoders do: an address is known from a message that carries it with a right parity, and makes others believed.
    let own = |m: &[u8]| m.len() > 2 && matches!(m[0] >> 3, 11 | 17 | 18);
    let address = |m: &[u8]| u32::from_be_bytes([0, m[1], m[2], m[3]]);
    let known: HashSet<u32> = found.iter().filter(|(_, m)| own(m) && overlay(m) == 0).map(|(_, m)| address(m)).collect();
    let believed = |m: &[u8]| match m {
        [_, _] => true,
        _ if m[0] >> 3 == 11 => overlay(m) < 80,
        _ if own(m) => overlay(m) == 0,
        _ => known.contains(&overlay(m)),
    };
    let mut text = String::new();
    for (at, message) in found.iter().filter(|(_, m)| believed(m)) {
        let hex: String = message.iter().map(|b| format!("{b:02X}")).collect();
        // Ticks of 12 MHz.
        text += &format!("@{:012X}{hex};\n", at * 3 / 2);
    }
    if let Err(e) = std::io::stdout().write_all(text.as_bytes()) {
        eprintln!("check: standard output: {e}");
        std::process::exit(3);
    }
}
