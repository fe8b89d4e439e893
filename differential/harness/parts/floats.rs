//! The crate `floats`: what the language lacks and the Rust has.

use crate::random::Random;
use crate::tally::{Tally, pattern32};

unsafe extern "C" {
    pub safe fn port_narrow(x: f64) -> f32;
    safe fn port_ceil_to_i64(x: f64) -> i64;
    safe fn port_to_u64(x: f64) -> u64;
}

pub fn compare(t: &mut Tally, r: &mut Random, count: u64) {
    let special = crate::random::SPECIAL.into_iter();
    let some: Vec<f64> = (0..count).map(|_| r.argument()).collect();
    for x in special.chain(some) {
        t.same("narrow", x, pattern32(x as f32), pattern32(port_narrow(x)));
        t.same("ceil_to_i64", x, x.ceil() as i64, port_ceil_to_i64(x));
        t.same("to_u64", x, x as u64, port_to_u64(x));
    }
}
