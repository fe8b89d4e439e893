//! The stand-in of `rand_distr` in differential/reference, with the noise from its source.

use rand::Rng;
pub use rand::distr::Distribution;

/// The gap to the next message.
pub struct Exp;

impl Exp {
    pub fn new(_lambda: f64) -> Result<Exp, ()> {
        Ok(Exp)
    }
}

impl Distribution<f64> for Exp {
    fn sample<R: Rng + ?Sized>(&self, _rng: &mut R) -> f64 {
        lent::gap()
    }
}

pub struct StandardNormal;

/// The carrier draw.
impl Distribution<f64> for StandardNormal {
    fn sample<R: Rng + ?Sized>(&self, _rng: &mut R) -> f64 {
        lent::draw().carrier
    }
}

/// A noise value.
impl Distribution<f32> for StandardNormal {
    #[inline]
    fn sample<R: Rng + ?Sized>(&self, rng: &mut R) -> f32 {
        rng.noise()
    }
}
