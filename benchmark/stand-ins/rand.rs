//! The stand-in of `rand` in differential/reference, but that the source of the noise holds its own place, so that the
//! compiler can keep it in a register.

/// A source of draws, which `lent` holds, and of noise, which it counts itself.
pub trait Rng {
    fn noise(&mut self) -> f32;
}

pub trait SeedableRng {
    fn seed_from_u64(seed: u64) -> Self;
}

pub trait RngExt: Rng {
    fn random<T: Lent>(&mut self) -> T {
        T::lent()
    }

    fn random_range<T, B: LentRange<T>>(&mut self, range: B) -> T {
        range.lent()
    }

    fn sample<T, D: distr::Distribution<T>>(&mut self, d: D) -> T {
        d.sample(self)
    }

    /// The draw's bytes: all of them, or those from byte 1 on where the reference fills what follows its byte 0. Document
    /// 01 has 0 in bytes 1 to 3 of an all-call.
    fn fill<B: AsMut<[u8]> + ?Sized>(&mut self, bytes: &mut B) {
        let d = lent::draw();
        let out = bytes.as_mut();
        match out.len() {
            7 | 14 => out.copy_from_slice(&d.bytes[..out.len()]),
            3 if d.kind == 3 => out.fill(0),
            n => out.copy_from_slice(&d.bytes[1..1 + n]),
        }
    }
}

impl<R: Rng + ?Sized> RngExt for R {}

pub trait Lent {
    fn lent() -> Self;
}

/// The seed of the noise: not used.
impl Lent for u64 {
    fn lent() -> u64 {
        0
    }
}

/// The number that decides on SPI, which is set below 0.05.
impl Lent for f32 {
    fn lent() -> f32 {
        if lent::draw().spi == 1 { 0.0 } else { 1.0 }
    }
}

pub trait LentRange<T> {
    fn lent(self) -> T;
}

/// The phase.
impl LentRange<f64> for std::ops::Range<f64> {
    fn lent(self) -> f64 {
        lent::draw().phase
    }
}

/// The clock error.
impl LentRange<f64> for std::ops::RangeInclusive<f64> {
    fn lent(self) -> f64 {
        lent::draw().clock
    }
}

/// The overlay.
impl LentRange<u8> for std::ops::Range<u8> {
    fn lent(self) -> u8 {
        lent::draw().overlay
    }
}

/// Mode A/C data.
impl LentRange<u16> for std::ops::Range<u16> {
    fn lent(self) -> u16 {
        lent::draw().data
    }
}

pub mod seq {
    /// A choice from a list: lists of 5 or 6 are of CA or control, the others of formats.
    pub trait IndexedRandom<T> {
        fn choose<R: super::Rng + ?Sized>(&self, rng: &mut R) -> Option<&T>;
    }

    impl<T> IndexedRandom<T> for [T] {
        fn choose<R: super::Rng + ?Sized>(&self, _rng: &mut R) -> Option<&T> {
            let d = lent::draw();
            let pick = match self.len() {
                5 | 6 => d.ca_pick,
                _ => d.df_pick,
            };
            self.get(usize::from(pick))
        }
    }
}

pub mod distr {
    pub trait Distribution<T> {
        fn sample<R: super::Rng + ?Sized>(&self, rng: &mut R) -> T;
    }

    /// Only C/N0 would use it, and the tape gives C/N0 itself.
    pub struct StandardUniform;

    impl Distribution<f64> for StandardUniform {
        fn sample<R: super::Rng + ?Sized>(&self, _rng: &mut R) -> f64 {
            unreachable!()
        }
    }

    pub mod weighted {
        /// The message type.
        pub struct WeightedIndex;

        impl WeightedIndex {
            pub fn new(_weights: [f64; 7]) -> Result<WeightedIndex, ()> {
                Ok(WeightedIndex)
            }
        }

        impl super::Distribution<usize> for WeightedIndex {
            fn sample<R: crate::Rng + ?Sized>(&self, _rng: &mut R) -> usize {
                usize::from(lent::draw().kind)
            }
        }
    }
}

pub mod rngs {
    /// Noise from the lent values on, from the first again after the last.
    pub struct Xoshiro256PlusPlus {
        noise: &'static [f32; lent::NOISE],
        used: usize,
    }

    impl Xoshiro256PlusPlus {
        pub fn new() -> Xoshiro256PlusPlus {
            Xoshiro256PlusPlus {
                noise: lent::noise(),
                used: 0,
            }
        }
    }

    impl super::Rng for Xoshiro256PlusPlus {
        #[inline]
        fn noise(&mut self) -> f32 {
            let x = self.noise[self.used % lent::NOISE];
            self.used += 1;
            x
        }
    }

    impl super::SeedableRng for Xoshiro256PlusPlus {
        #[inline]
        fn seed_from_u64(_seed: u64) -> Xoshiro256PlusPlus {
            Xoshiro256PlusPlus::new()
        }
    }
}

pub mod prelude {
    pub use super::distr::Distribution;
    pub use super::{Rng, RngExt, SeedableRng};
}
