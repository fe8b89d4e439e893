//! The crate `math`: the wraps against the reference's, sine and cosine against the steps of SPECIFICATION 6.11.

use crate::random::Random;
use crate::tally::{Tally, pattern64};
use reference::math;
use std::f64::consts::PI;

unsafe extern "C" {
    /// The phase wrapped, wrapped once, its sine and its cosine.
    safe fn port_phase(p: f64, out: &mut [f64; 4]);
}

pub fn compare(t: &mut Tally, r: &mut Random, count: u64) {
    let special = crate::random::SPECIAL.into_iter();
    let some: Vec<f64> = (0..count).map(|_| phase(r)).collect();
    for x in special.chain(some) {
        let mut ours = [f64::NAN; 4];
        port_phase(x, &mut ours);
        let [our_wrapped, our_once, our_sin, our_cos] = ours;
        let wrapped = math::phase_wrap_f64(x);
        t.same("phase_wrap_f64", x, pattern64(wrapped), pattern64(our_wrapped));
        let once = math::phase_wrap_once_f64(x);
        t.same("phase_wrap_once_f64", x, pattern64(once), pattern64(our_once));
        let (sin, cos) = lent::sin_cos_by_steps(x);
        t.same("sine", x, pattern64(sin), pattern64(our_sin));
        t.same("cosine", x, pattern64(cos), pattern64(our_cos));
        if (-PI..=PI).contains(&x) {
            let far = (our_sin - x.sin()).abs().max((our_cos - x.cos()).abs());
            t.same("sine and cosine near sin_cos", x, true, far <= 2f64.powi(-23));
        }
    }
}

/// A phase from -PI to PI, one near a limit of the wraps or the quadrants, or any f64.
fn phase(r: &mut Random) -> f64 {
    match r.below(4) {
        0 => r.argument(),
        1 => {
            let limit = r.pick(&[0.25, 0.5, 0.75, 1.0, 2.0, 3.0]) * PI;
            let near = r.pick(&[limit, limit.next_up(), limit.next_down()]);
            if r.once_in(2) { near } else { -near }
        }
        2 => r.within(3.0 * PI),
        _ => r.within(PI),
    }
}
