//! The tape (SPECIFICATION 4.6): its parts and its bytes, and the numbers that follow from its samples per pulse.

pub use lent::Draw;

pub const SETTINGS_BYTES: usize = 124;
pub const DRAW_BYTES: usize = 65;
pub const RECORD_BYTES: usize = 66;
pub const MOST_DRAWS: usize = 400;

/// What follows from the samples per pulse.
#[derive(Debug, Clone, Copy, PartialEq, Eq)]
pub struct Numbers {
    /// Samples a second.
    pub rate: u64,
    pub mode_s_taps: usize,
    pub mode_ac_taps: usize,
    pub prototype: usize,
    pub working_memory: usize,
    pub longest_reply: usize,
    pub held_back: usize,
}

/// SPECIFICATION's numbers at 4 and at 8; there are none for another number.
pub const fn numbers(samples_per_pulse: u8) -> Option<Numbers> {
    match samples_per_pulse {
        4 => Some(Numbers {
            rate: 8_000_000,
            mode_s_taps: 1486,
            mode_ac_taps: 1515,
            prototype: 1792,
            working_memory: 2252,
            longest_reply: 1094,
            held_back: 32,
        }),
        8 => Some(Numbers {
            rate: 16_000_000,
            mode_s_taps: 2971,
            mode_ac_taps: 3029,
            prototype: 3584,
            working_memory: 4502,
            longest_reply: 2187,
            held_back: 64,
        }),
        _ => None,
    }
}

/// The samples per pulse of the reference that this program is built with, and their numbers. A tape of the other setting goes
/// by the rules as far as they refuse it; `OTHER` is that setting.
pub const SPP: u8 = reference::constants::dsp::SPS as u8;
pub const OTHER: u8 = 12 - SPP;
pub const HERE: Numbers = numbers(SPP).unwrap();
pub const THERE: Numbers = numbers(OTHER).unwrap();
pub const MODE_S_TAPS: usize = HERE.mode_s_taps;
pub const MODE_AC_TAPS: usize = HERE.mode_ac_taps;
pub const TAPS: usize = MODE_S_TAPS + MODE_AC_TAPS;

/// A distribution: its kind and two numbers, a lone one in the first.
#[derive(Debug, Clone, Copy)]
pub struct Asked {
    pub kind: u8,
    pub first: f64,
    pub second: f64,
}

#[derive(Debug, Clone, Copy)]
pub struct Settings {
    pub seconds: u64,
    pub nanoseconds: u32,
    pub rates: [f64; 7],
    pub carrier: Asked,
    pub phase: Asked,
    pub clock: Asked,
    pub trigger_level: f32,
    pub samples_per_pulse: u8,
}

#[derive(Debug, Clone)]
pub struct Tape {
    pub settings: Settings,
    pub taps: Vec<f32>,
    pub draws: Vec<Draw>,
    pub noise: Vec<f32>,
}

impl Settings {
    /// The numbers of its samples per pulse; those of 4, where the rules refuse it.
    pub fn numbers(&self) -> Numbers {
        numbers(self.samples_per_pulse).unwrap_or(numbers(4).unwrap())
    }

    /// The duration in samples; the seconds may be any number.
    pub fn samples(&self) -> u128 {
        let rate = u128::from(self.numbers().rate);
        u128::from(self.seconds) * rate + u128::from(self.nanoseconds) * (rate / 8_000_000) / 125
    }

    pub fn to_bytes(&self) -> Vec<u8> {
        let mut b = Vec::new();
        b.extend(self.seconds.to_le_bytes());
        b.extend(self.nanoseconds.to_le_bytes());
        for r in self.rates {
            b.extend(r.to_le_bytes());
        }
        for d in [self.carrier, self.phase, self.clock] {
            b.push(d.kind);
            b.extend(d.first.to_le_bytes());
            b.extend(d.second.to_le_bytes());
        }
        b.extend(self.trigger_level.to_le_bytes());
        b.push(self.samples_per_pulse);
        assert_eq!(b.len(), SETTINGS_BYTES);
        b
    }

    pub fn from_bytes(b: &[u8]) -> Settings {
        let asked = |at: usize| Asked {
            kind: b[at],
            first: f64_at(b, at + 1),
            second: f64_at(b, at + 9),
        };
        Settings {
            seconds: u64::from_le_bytes(b[..8].try_into().unwrap()),
            nanoseconds: u32_at(b, 8),
            rates: std::array::from_fn(|k| f64_at(b, 12 + 8 * k)),
            carrier: asked(68),
            phase: asked(85),
            clock: asked(102),
            trigger_level: f32_at(b, 119),
            samples_per_pulse: b[123],
        }
    }
}

pub fn draw_to_bytes(d: &Draw) -> Vec<u8> {
    let mut b = Vec::new();
    b.extend(d.gap.to_le_bytes());
    b.push(d.kind);
    b.extend(d.cn0.to_le_bytes());
    b.extend(d.amplitude.to_le_bytes());
    b.extend(d.carrier.to_le_bytes());
    b.extend(d.phase.to_le_bytes());
    b.extend(d.clock.to_le_bytes());
    b.extend([d.df_pick, d.ca_pick, d.overlay]);
    b.extend(d.bytes);
    b.extend(d.data.to_le_bytes());
    b.push(d.spi);
    assert_eq!(b.len(), DRAW_BYTES);
    b
}

pub fn draw_from_bytes(b: &[u8]) -> Draw {
    Draw {
        gap: f64_at(b, 0),
        kind: b[8],
        cn0: f64_at(b, 9),
        amplitude: f32_at(b, 17),
        carrier: f64_at(b, 21),
        phase: f64_at(b, 29),
        clock: f64_at(b, 37),
        df_pick: b[45],
        ca_pick: b[46],
        overlay: b[47],
        bytes: b[48..62].try_into().unwrap(),
        data: u16::from_le_bytes([b[62], b[63]]),
        spi: b[64],
    }
}

impl Tape {
    pub fn to_bytes(&self) -> Vec<u8> {
        let mut b = Vec::new();
        b.extend(1u32.to_le_bytes());
        b.extend(self.settings.to_bytes());
        put_counted(&mut b, &self.taps);
        b.extend((self.draws.len() as u32).to_le_bytes());
        for d in &self.draws {
            b.extend(draw_to_bytes(d));
        }
        put_counted(&mut b, &self.noise);
        b
    }

    /// Where the bytes of each section begin, its count included: settings, taps, draws, noise, and the end.
    pub fn places(&self) -> [usize; 5] {
        let taps = 4 + SETTINGS_BYTES;
        let draws = taps + 4 + 4 * self.taps.len();
        let noise = draws + 4 + DRAW_BYTES * self.draws.len();
        [0, taps, draws, noise, noise + 4 + 4 * self.noise.len()]
    }
}

fn put_counted(b: &mut Vec<u8>, values: &[f32]) {
    b.extend((values.len() as u32).to_le_bytes());
    for x in values {
        b.extend(x.to_le_bytes());
    }
}

pub fn u32_at(b: &[u8], at: usize) -> u32 {
    u32::from_le_bytes(b[at..at + 4].try_into().unwrap())
}

pub fn f32_at(b: &[u8], at: usize) -> f32 {
    f32::from_le_bytes(b[at..at + 4].try_into().unwrap())
}

pub fn f64_at(b: &[u8], at: usize) -> f64 {
    f64::from_le_bytes(b[at..at + 8].try_into().unwrap())
}

pub fn floats(b: &[u8]) -> Vec<f32> {
    b.chunks_exact(4).map(|c| f32_at(c, 0)).collect()
}
