//! Makes what is private in pulse_shape.rs reachable for the harness. Each function only calls.

pub fn mode_s_prototype() -> Vec<f32> {
    super::build_mode_s_prototype_filter()
}

pub fn mode_ac_prototype() -> Vec<f32> {
    super::build_mode_ac_prototype_filter()
}

pub fn group_delay(prototype: &[f32]) -> f64 {
    super::compute_group_delay(prototype)
}

pub fn convolve_full(a: &[f32], b: &[f32]) -> Vec<f32> {
    super::convolve_full(a, b)
}

pub fn trapezoidal_pulse(rise_time: usize, fall_time: usize, total_len: usize) -> Vec<f32> {
    super::trapezoidal_pulse(rise_time, fall_time, total_len)
}

/// The taps at a clock phase, as the iterator of that phase has them.
pub fn filter_taps(prototype: &[f32], clock_phase: f64) -> [f32; super::TAPS_PER_BRANCH] {
    let filterbank = super::prototype_to_bank(prototype);
    let pulses = super::super::message_to_pulses(&super::super::SSRReply::ModeAC(
        crate::mode_ac::ModeACReply::new(0, false).unwrap(),
    ));
    super::ApplyFilterbank {
        filterbank: &filterbank,
        pulses,
        clock_phase,
        clock_rate_error: 0.0,
        current_index: 0,
    }
    .filter_taps()
}

pub fn convolve_taps_pulses(taps: &[f32; super::TAPS_PER_BRANCH], pulses: &[bool], index: usize) -> f32 {
    super::convolve_taps_pulses(taps, pulses, index)
}

/// The filterbank's values of a whole message.
pub fn values(
    prototype: &[f32],
    message: &super::super::SSRReply,
    clock_phase: f64,
    clock_error: f64,
) -> Vec<f32> {
    let pulses = super::super::message_to_pulses(message);
    super::apply_filterbank(
        &super::prototype_to_bank(prototype),
        pulses,
        clock_phase,
        clock_error,
    )
    .collect()
}

/// The filterbank's values of up to 240 pulses.
pub fn values_of_pulses(prototype: &[f32], on: &[bool], clock_phase: f64, clock_error: f64) -> Vec<f32> {
    let mut data = [false; super::super::MAX_MESSAGE_PULSES];
    data[..on.len()].copy_from_slice(on);
    let pulses = super::super::Pulses { data, len: on.len() };
    super::apply_filterbank(
        &super::prototype_to_bank(prototype),
        pulses,
        clock_phase,
        clock_error,
    )
    .collect()
}
