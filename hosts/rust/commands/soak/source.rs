//! The run of a soak with its draws and its noise, in blocks of samples.
use super::config::Config;
use super::drawn::{Draws, Normal};
use crate::draws::Random;
use crate::exact::lowpasses;
use crate::more1090_generator::{DRAW_LEN, RECORD_LEN, Run, STOP_DONE, SamplesPerPulse};
use crate::shell::{Failure, refused};

/// Samples of a block; the last one of a run may be shorter.
pub const BLOCK: usize = 1 << 15;

/// The draws that a run call is passed, and the records that it has room for.
const REPLIES_A_CALL: usize = 64;

/// A run of these settings, with the lowpasses of `exact`; or the refusal's number and value.
pub fn opened(settings: &[u8]) -> Result<Run, (u64, u64)> {
    let taps = lowpasses(SamplesPerPulse::of_settings(settings));
    Run::open(settings, &taps.0, &taps.1)
}

/// The generators of draws and of noise are two, so that the samples do not depend on how the run is cut into calls. Between
/// two blocks no noise is left over.
pub struct Source {
    pub run: Run,
    pub drawn: Random,
    pub noisy: Random,
    /// Drawn and not taken.
    pub draws: Vec<u8>,
    pub replies: u64,
    pub added: u128,
    pub done: bool,
    ways: Draws,
    normal: Normal,
    noise: Vec<f32>,
    output: Vec<f32>,
    records: Vec<u8>,
}

impl Source {
    pub fn new(config: &Config, run: Run) -> Source {
        let ways = Draws {
            rates: config.rates,
            sample_rate: config.samples_per_pulse.sample_rate() as f64,
            level: config.level,
            clock_max: config.clock_max,
        };
        Source {
            run,
            drawn: Random(config.seed),
            noisy: Random(!config.seed),
            draws: Vec::new(),
            replies: 0,
            added: 0,
            done: false,
            ways,
            normal: Normal::new(),
            noise: vec![0.0; 2 * BLOCK],
            output: vec![0.0; 2 * BLOCK],
            records: vec![0; REPLIES_A_CALL * RECORD_LEN],
        }
    }

    /// Samples made so far.
    pub fn position(&self) -> u64 {
        self.run.state.written
    }

    /// Makes the next block: `BLOCK` samples, or fewer where the run is done then. The records of its replies are put behind
    /// others.
    pub fn block(&mut self, records: &mut Vec<u8>) -> Result<&[f32], Failure> {
        let mut noisy = Random(self.noisy.0);
        for value in &mut self.noise {
            *value = self.normal.next(&mut noisy) as f32;
        }
        self.noisy = noisy;
        let mut made = 0;
        while made < self.output.len() && !self.done {
            made += self.call(made, records)?;
        }
        Ok(&self.output[..made])
    }

    /// A run call for what a block lacks behind its first floats; answers how many more it has.
    fn call(&mut self, made: usize, records: &mut Vec<u8>) -> Result<usize, Failure> {
        while self.draws.len() < REPLIES_A_CALL * DRAW_LEN {
            self.ways.next(&mut self.drawn, &self.normal, &mut self.draws);
        }
        let ran = self.run.call(&self.draws, &self.noise[made..], &mut self.output[made..], &mut self.records);
        if ran.refusal != 0 {
            return Err(refused(ran.refusal, ran.value, ran.field));
        }
        self.draws.drain(..DRAW_LEN * ran.draws_taken as usize);
        records.extend(&self.records[..RECORD_LEN * ran.records_written as usize]);
        self.replies += ran.records_written;
        self.added += ran.samples_added();
        self.done = ran.stop == STOP_DONE;
        Ok(2 * ran.samples_written as usize)
    }
}
