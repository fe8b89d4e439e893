// The published Rust: `Simulation::run` with the draws, taps and noise of a load. The driver includes this in two modules, in which
// `published` is the reference at 4 and at 8 samples per pulse.

use crate::loads::{CARRIER_MAX, CARRIER_SIGMA, CLOCK_MAX, Load};
use crate::{Given, summed, timed};
use num::complex::Complex32;
use published::io::WriteComplex32;
use published::simulation::distributions::*;
use published::simulation::{MessagesPerSecond, Simulation, pulse_shape};
use std::hint::black_box;

/// Takes the samples where they are, as the port's output is.
struct Writer {
    check: bool,
    given: Given,
}

impl WriteComplex32 for Writer {
    fn write_complex32(&mut self, samples: &[Complex32]) -> std::io::Result<()> {
        let samples = black_box(samples);
        self.given.samples += samples.len() as u64;
        if self.check {
            self.given.sum = samples.iter().fold(self.given.sum, |sum, z| summed(sum, &[z.re, z.im]));
        }
        Ok(())
    }
}

fn simulation(load: &Load, batch_size: usize) -> Simulation {
    let r = load.rates;
    Simulation {
        duration: std::time::Duration::from_secs(load.seconds as u64),
        messages_per_second: MessagesPerSecond {
            extended_squitter: r[0],
            acquisition_squitter: r[1],
            short_ap: r[2],
            all_call_reply: r[3],
            long_ap: r[4],
            military_extended_squitter: r[5],
            mode_ac: r[6],
        },
        message_distributions: MessageDistributions {
            cn0: CN0Distribution::default(),
            carrier_frequency_offset: CarrierFrequencyOffsetDistribution::ClampedNormal(
                ClampedNormalCarrierFrequencyOffset::new(CARRIER_SIGMA, CARRIER_MAX).ok().unwrap(),
            ),
            carrier_phase: CarrierPhaseDistribution::Uniform,
            symbol_clock_error: SymbolClockErrorDistribution::Uniform(
                UniformSymbolClockError::new(CLOCK_MAX).ok().unwrap(),
            ),
        },
        batch_size,
    }
}

/// The filter banks and delays, made of lent taps.
pub fn open(load: &Load) {
    lent::lend_taps(load.taps);
    black_box(pulse_shape::mode_s_group_delay());
}

/// What a run gives, and how long it took from opening on.
pub fn run(load: &Load, batch: usize, check: bool) -> (Given, f64) {
    open(load);
    lent::lend(load.draws, load.noise);
    let simulation = simulation(load, batch);
    let mut writer = Writer {
        check,
        given: Given::default(),
    };
    let mut records = 0;
    let (ended, time) = timed(|| {
        simulation.run(&mut rand::rngs::Xoshiro256PlusPlus::new(), &mut writer, |m| {
            black_box(m);
            records += 1;
            Ok(())
        })
    });
    assert!(ended.is_ok(), "the Rust refused the run");
    (Given { records, ..writer.given }, time)
}
