//! Makes what is private in simulation.rs reachable for the harness. Each function only calls.

use super::*;

pub fn group_delay(m: &MessageConfig) -> f64 {
    m.group_delay()
}

pub fn first_sample_index(m: &MessageConfig) -> i64 {
    m.first_sample_index()
}

pub fn clock_phase(m: &MessageConfig) -> f64 {
    m.clock_phase()
}

pub fn clock_error_for_filterbank(m: &MessageConfig) -> f64 {
    m.clock_error_for_filterbank()
}

/// The samples that the message adds, with the amplitude of the draw taken last.
pub fn samples(m: &MessageConfig) -> Vec<Complex32> {
    m.samples().collect()
}

pub fn pulses(m: &SSRReply) -> Vec<bool> {
    message_to_pulses(m).as_slice().to_vec()
}

/// The amplitude that C/N0 gives, which samples do not use here.
pub fn amplitude(m: &MessageConfig) -> f32 {
    m.amplitude()
}
