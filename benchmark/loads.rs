//! What both are fed: settings, taps, draws and noise, from one seed.

use crate::ours::SamplesPerPulse;
use crate::random::Random;
use lent::{Draw, NOISE};

/// The Rust's weights of the message types, and its distributions of carrier and clock.
const WEIGHTS: [f64; 7] = [0.45, 0.17, 0.109, 0.059, 0.108, 0.004, 0.1];
pub const CARRIER_SIGMA: f64 = 100e3;
pub const CARRIER_MAX: f64 = 1e6;
pub const CLOCK_MAX: f64 = 50e-6;

/// No start lies before an earlier one, where gaps are at least so many pulses: a Rust of small batches panics otherwise.
const LEAST_GAP: f64 = 1.0;

pub struct Load {
    pub setting: SamplesPerPulse,
    pub rate: f64,
    pub seconds: usize,
    pub rates: [f64; 7],
    pub taps: &'static [f32],
    pub draws: &'static [Draw],
    pub draw_bytes: Vec<u8>,
    pub noise: &'static [f32; NOISE],
}

impl Random {
    /// From 0 to below 1.
    fn unit(&mut self) -> f64 {
        (self.next() >> 11) as f64 / (1u64 << 53) as f64
    }

    fn normal(&mut self) -> f64 {
        (-2.0 * (1.0 - self.unit()).ln()).sqrt() * (2.0 * std::f64::consts::PI * self.unit()).cos()
    }

    fn below(&mut self, n: u64) -> u8 {
        (self.next() % n) as u8
    }

    fn kind(&mut self) -> u8 {
        let mut u = self.unit();
        for (k, w) in WEIGHTS.iter().enumerate() {
            if u < *w {
                return k as u8;
            }
            u -= w;
        }
        0
    }

    fn draw(&mut self, gap: f64) -> Draw {
        let kind = self.kind();
        let df_pick = match kind {
            0 => self.below(2),
            2 => self.below(3),
            4 => self.below(11),
            _ => 0,
        };
        Draw {
            gap,
            kind,
            cn0: 90.0,
            amplitude: (0.01 + 0.2 * self.unit()) as f32,
            carrier: self.normal(),
            phase: std::f64::consts::PI * (2.0 * self.unit() - 1.0),
            clock: CLOCK_MAX * (2.0 * self.unit() - 1.0),
            df_pick,
            ca_pick: self.below(5),
            overlay: 1 + self.below(127),
            bytes: std::array::from_fn(|_| self.below(256)),
            data: (self.next() % 4096) as u16,
            spi: u8::from(self.unit() < 0.05),
        }
    }
}

/// A low-pass of so many taps, by a Hann window, with a gain of 1.
fn lowpass(taps: usize, cutoff: f64) -> Vec<f32> {
    let middle = (taps - 1) as f64 / 2.0;
    let wanted: Vec<f64> = (0..taps)
        .map(|k| {
            let t = k as f64 - middle;
            let sinc = if t == 0.0 { cutoff } else { (std::f64::consts::PI * cutoff * t).sin() / (std::f64::consts::PI * t) };
            sinc * (0.5 + 0.5 * (std::f64::consts::PI * t / (middle + 1.0)).cos())
        })
        .collect();
    let gain: f64 = wanted.iter().sum();
    wanted.iter().map(|x| (x / gain) as f32).collect()
}

fn bytes(d: &Draw) -> Vec<u8> {
    let mut b = Vec::new();
    b.extend(d.gap.to_le_bytes());
    b.push(d.kind);
    b.extend(d.cn0.to_le_bytes());
    b.extend(d.amplitude.to_le_bytes());
    b.extend(d.carrier.to_le_bytes());
    b.extend(d.phase.to_le_bytes());
    b.extend(d.clock.to_le_bytes());
    b.extend([d.df_pick, d.ca_pick, d.overlay]);
    b.extend(d.bytes);
    b.extend(d.data.to_le_bytes());
    b.push(d.spi);
    b
}

impl Load {
    pub fn new(setting: SamplesPerPulse, rate: f64, seconds: usize) -> Load {
        let mut random = Random(1);
        let (per_pulse, per_second) = (f64::from(setting as u8), setting.sample_rate() as f64);
        let (samples, least_gap) = (per_second * seconds as f64, LEAST_GAP * per_pulse);
        let mut draws = Vec::new();
        let mut time = 0.0;
        while rate > 0.0 && time < samples {
            let gap = least_gap + (per_second / rate - least_gap) * -(1.0 - random.unit()).ln();
            time += gap;
            draws.push(random.draw(gap));
        }
        draws.push(random.draw(2.0 * samples));
        let cutoff = 1.0 / 16.0 / per_pulse;
        let mut taps = lowpass(setting.mode_s_taps_len(), cutoff);
        taps.extend(lowpass(setting.mode_ac_taps_len(), cutoff));
        let noise: Vec<f32> = (0..NOISE).map(|_| random.normal() as f32).collect();
        Load {
            setting,
            rate,
            seconds,
            rates: WEIGHTS.map(|w| w * rate.max(1.0)),
            taps: taps.leak(),
            draw_bytes: draws.iter().flat_map(bytes).collect(),
            draws: draws.leak(),
            noise: Box::leak(noise.into_boxed_slice().try_into().unwrap()),
        }
    }

    pub fn samples(&self) -> usize {
        self.setting.sample_rate() as usize * self.seconds
    }

    /// The settings as the port reads them.
    pub fn settings(&self) -> Vec<u8> {
        let mut b = Vec::new();
        b.extend((self.seconds as u64).to_le_bytes());
        b.extend(0u32.to_le_bytes());
        for r in self.rates {
            b.extend(r.to_le_bytes());
        }
        for (first, second) in [(CARRIER_SIGMA, CARRIER_MAX), (0.0, 0.0), (CLOCK_MAX, 0.0)] {
            b.push(1);
            b.extend(f64::to_le_bytes(first));
            b.extend(f64::to_le_bytes(second));
        }
        // the Rust's trigger level
        b.extend(0.5f32.to_le_bytes());
        b.push(self.setting as u8);
        b
    }
}
