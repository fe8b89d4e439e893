//! A run and the rack behind it as bytes, and back, by the library: what is read back is what was written, and bytes that have
//! changed are refused.
use crate::more1090_generator::{Rack, Run, stored_refusal};

pub fn save(run: &Run, rack: &Rack) -> Vec<u8> {
    run.save_with(rack)
}

pub fn restore(bytes: &[u8]) -> Result<(Run, Rack), String> {
    Run::restore_with(bytes).map_err(|number| format!("its run is refused, {number}: {}", stored_refusal(number)))
}
