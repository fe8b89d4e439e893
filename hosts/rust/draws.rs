//! A run with random replies, in the shapes and with the default numbers of the published Rust: its settings, draws and noise,
//! by the numbers of `exact`.
use crate::exact::{ln, sin_cos};
use crate::more1090_generator::{DRAW_LEN, RECORD_LEN, Run, RunResult, SETTINGS_LEN, SamplesPerPulse, level, tenths_of_db};
use crate::shell::{Failure, SAMPLES_PER_PULSE, Words, number, refused};
use std::f64::consts::{PI, SQRT_2};

/// Typical weights of the types, in the order of `MessageType::ALL`.
pub const WEIGHTS: [f64; 7] = [0.45, 0.17, 0.109, 0.059, 0.108, 0.004, 0.1];
pub const CLOCK_MAX: f64 = 50e-6;

/// C/N0 in dB Hz, for the record, and the amplitude.
#[derive(Clone, Copy)]
pub struct Level {
    pub cn0: f64,
    pub amplitude: f32,
}

/// The level that `--level` names, if it is given. Levels are those of 4 samples per pulse.
pub fn level_of(words: &Words) -> Result<Option<Level>, Failure> {
    let Some(text) = words.option("--level") else { return Ok(None) };
    if words.samples_per_pulse()? == 8 {
        return Err(Failure::Use(format!("--level: levels are those of 4 samples per pulse, and {SAMPLES_PER_PULSE} is 8")));
    }
    let tenths = tenths_of_db(text)
        .ok_or_else(|| Failure::Use(format!("--level: {text} is not in dB with one digit after the point or none")))?;
    let amplitude = level(tenths).map_err(|number| refused(number, 0, 0))?;
    Ok(Some(Level { cn0: tenths as f64 / 10.0, amplitude }))
}

/// Replies last 91 microseconds on average: at this rate each sample has those of 91 replies.
const HIGHEST_RATE: f64 = 1e6;

/// Replies a second; the library says whether they are in range, up to this program's own limit.
pub fn rate_of(text: &str, what: &str) -> Result<f64, Failure> {
    let rate: f64 = number(text, what)?;
    if rate.is_finite() && rate > HIGHEST_RATE {
        return Err(Failure::Refused(format!("{what}: {text} is above 1000000, where replies lie 91 deep")));
    }
    Ok(rate)
}

/// SplitMix64.
pub struct Random(pub u64);

impl Random {
    pub fn next(&mut self) -> u64 {
        self.0 = self.0.wrapping_add(0x9e37_79b9_7f4a_7c15);
        let z = (self.0 ^ (self.0 >> 30)).wrapping_mul(0xbf58_476d_1ce4_e5b9);
        let z = (z ^ (z >> 27)).wrapping_mul(0x94d0_49bb_1331_11eb);
        z ^ (z >> 31)
    }

    /// Uniform, from 0 to below 1.
    pub fn uniform(&mut self) -> f64 {
        (self.next() >> 11) as f64 / (1u64 << 53) as f64
    }

    pub fn below(&mut self, n: u8) -> u8 {
        (self.uniform() * f64::from(n)) as u8
    }

    /// Two normal values, by Box and Muller.
    fn normals(&mut self) -> [f64; 2] {
        let r = (-2.0 * ln(1.0 - self.uniform())).sqrt();
        let (s, c) = sin_cos(2.0 * PI * self.uniform());
        [r * c, r * s]
    }

    /// The level of a sender from 10 to 300 km away, at 100 dB Hz from 10 km.
    fn sender(&mut self, sample_rate: f64) -> Level {
        let square = 1e2 + (9e4 - 1e2) * self.uniform(); // of the distance in km
        let cn0 = 120.0 - 10.0 / std::f64::consts::LN_10 * ln(square);
        let amplitude = 1e6 / square.sqrt() * SQRT_2 / 1024.0 / sample_rate.sqrt();
        Level { cn0, amplitude: amplitude as f32 }
    }

    /// The next draw: an exponential gap, a weighted type, and a sender by distance, or at one level.
    fn draw(&mut self, rate: f64, sample_rate: f64, level: Option<Level>) -> Vec<u8> {
        let gap = (0.0 - ln(1.0 - self.uniform())) * sample_rate / rate;
        let mut left = self.uniform() * WEIGHTS.iter().sum::<f64>();
        let above = |w: &f64| {
            left -= w;
            left < 0.0
        };
        let kind = WEIGHTS.iter().position(above).unwrap_or(6);
        let sender = self.sender(sample_rate);
        let Level { cn0, amplitude } = level.unwrap_or(sender);
        let format = self.below([2, 1, 3, 1, 11, 1, 1][kind]);
        let capability = self.below(if kind == 0 && format == 1 { 6 } else { 5 });
        let mut draw = Vec::new();
        draw.extend(gap.to_le_bytes());
        draw.push(kind as u8);
        draw.extend(cn0.to_le_bytes());
        draw.extend(amplitude.to_le_bytes());
        draw.extend(self.normals()[0].to_le_bytes());
        draw.extend(((2.0 * self.uniform() - 1.0) * PI).to_le_bytes());
        draw.extend(((2.0 * self.uniform() - 1.0) * CLOCK_MAX).to_le_bytes());
        draw.extend([format, capability, 1 + self.below(127)]);
        draw.extend(self.next().to_le_bytes());
        draw.extend(&self.next().to_le_bytes()[..6]);
        draw.extend(((self.next() & 4095) as u16).to_le_bytes());
        draw.push(u8::from(self.uniform() < 0.05));
        draw
    }
}

pub use crate::exact::lowpasses;

/// The normal noise of a random run of this seed: its first n values.
pub fn noise(seed: u64, n: usize) -> Vec<f32> {
    let mut noisy = Random(!seed);
    let mut values = Vec::new();
    while values.len() < n {
        values.extend(noisy.normals().map(|x| x as f32));
    }
    values.truncate(n);
    values
}

/// What a random run is asked for: seconds and nanoseconds, replies a second of all types, the generators' seed, one level for
/// every reply or by distance, where on its rise a pulse is timed, and the samples per pulse.
pub struct Asked {
    pub duration: (u64, u32),
    pub rate: f64,
    pub seed: u64,
    pub level: Option<Level>,
    pub trigger_level: f32,
    pub samples_per_pulse: u8,
}

fn settings(asked: &Asked) -> [u8; SETTINGS_LEN] {
    let mut s = Vec::new();
    s.extend(asked.duration.0.to_le_bytes());
    s.extend(asked.duration.1.to_le_bytes());
    for weight in WEIGHTS {
        s.extend((weight * asked.rate).to_le_bytes());
    }
    for [first, second] in [[100e3, 1e6], [0.0, 0.0], [CLOCK_MAX, 0.0f64]] {
        s.push(1);
        s.extend(first.to_le_bytes());
        s.extend(second.to_le_bytes());
    }
    s.extend(asked.trigger_level.to_le_bytes());
    s.push(asked.samples_per_pulse);
    s.try_into().unwrap()
}

const REPLIES_A_CALL: usize = 64;

/// A random run and all that is passed to its calls. The draws and the noise have a generator each, so that the samples do not
/// depend on how the run is cut into calls.
pub struct RandomRun {
    pub run: Run,
    rate: f64,
    sample_rate: f64,
    level: Option<Level>,
    drawn: Random,
    noisy: Random,
    draws: Vec<u8>,
    noise: Vec<f32>,
    output: Vec<f32>,
    records: Vec<u8>,
}

impl RandomRun {
    /// Opens it for calls of n samples at most, or answers the refusal's number and value.
    pub fn open(asked: &Asked, samples_a_call: usize) -> Result<RandomRun, (u64, u64)> {
        let setting = SamplesPerPulse::of(asked.samples_per_pulse.into());
        let taps = lowpasses(setting);
        Ok(RandomRun {
            run: Run::open(&settings(asked), &taps.0, &taps.1)?,
            rate: asked.rate,
            sample_rate: setting.sample_rate() as f64,
            level: asked.level,
            drawn: Random(asked.seed),
            noisy: Random(!asked.seed),
            draws: Vec::new(),
            noise: Vec::new(),
            output: vec![0.0; 2 * samples_a_call],
            records: vec![0; REPLIES_A_CALL * RECORD_LEN],
        })
    }

    /// The next run call, with new draws and noise behind those that were left.
    pub fn call(&mut self) -> RunResult {
        while self.draws.len() < REPLIES_A_CALL * DRAW_LEN {
            self.draws.extend(self.drawn.draw(self.rate, self.sample_rate, self.level));
        }
        while self.noise.len() < self.output.len() {
            self.noise.extend(self.noisy.normals().map(|x| x as f32));
        }
        let ran = self.run.call(&self.draws, &self.noise, &mut self.output, &mut self.records);
        self.draws.drain(..DRAW_LEN * ran.draws_taken as usize);
        self.noise.drain(..ran.noise_used as usize);
        ran
    }

    /// The samples, two f32 each, and the records that a call wrote.
    pub fn written(&self, ran: &RunResult) -> (&[f32], &[u8]) {
        (&self.output[..2 * ran.samples_written as usize], &self.records[..RECORD_LEN * ran.records_written as usize])
    }
}
