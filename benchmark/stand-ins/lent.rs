//! What is lent to the reference in place of chance, at the least cost: the draws and taps by reference, and document
//! 01's sine alone. It has the names that the stand-ins of `differential/reference` ask for. The driver has one thread.

use std::cell::UnsafeCell;

/// How many noise values are lent; they come again and again.
pub const NOISE: usize = 131_072;

/// One draw of a tape, field by field in tape order.
#[derive(Debug, Clone, Copy, PartialEq)]
pub struct Draw {
    pub gap: f64,
    pub kind: u8,
    pub cn0: f64,
    pub amplitude: f32,
    pub carrier: f64,
    pub phase: f64,
    pub clock: f64,
    pub df_pick: u8,
    pub ca_pick: u8,
    pub overlay: u8,
    pub bytes: [u8; 14],
    pub data: u16,
    pub spi: u8,
}

struct Lent {
    draws: &'static [Draw],
    taken: usize,
    noise: &'static [f32; NOISE],
    taps: &'static [f32],
    number: u64,
}

struct Own(UnsafeCell<Lent>);

// One thread uses it.
unsafe impl Sync for Own {}

static OWN: Own = Own(UnsafeCell::new(Lent {
    draws: &[],
    taken: 0,
    noise: &[0.0; NOISE],
    taps: &[],
    number: 0,
}));

#[inline]
fn own() -> &'static mut Lent {
    unsafe { &mut *OWN.0.get() }
}

/// Lends draws and noise, from their first on.
pub fn lend(draws: &'static [Draw], noise: &'static [f32; NOISE]) {
    own().draws = draws;
    own().taken = 0;
    own().noise = noise;
}

pub fn noise() -> &'static [f32; NOISE] {
    own().noise
}

/// Lends the taps, Mode S first. What was made of taps lent before is made again.
pub fn lend_taps(taps: &'static [f32]) {
    own().taps = taps;
    own().number += 1;
}

/// The level at which the benchmark's delays are taken.
pub fn trigger_level() -> f32 {
    0.5
}

/// The draw taken last.
#[inline]
pub fn draw() -> &'static Draw {
    &own().draws[own().taken - 1]
}

/// Takes the next draw and gives its gap.
#[inline]
pub fn gap() -> f64 {
    own().taken += 1;
    draw().gap
}

#[inline]
pub fn cn0() -> f64 {
    draw().cn0
}

#[inline]
pub fn amplitude() -> f32 {
    draw().amplitude
}

/// The lent taps of the filter of that many taps.
pub fn taps(count: usize) -> Vec<f32> {
    match count {
        1486 | 2971 => own().taps[..count].to_vec(),
        _ => own().taps[own().taps.len() - count..].to_vec(),
    }
}

/// The sine and cosine of p by SPECIFICATION 6.11, which the compiler may inline; or the published program's own.
#[inline]
pub fn sin_cos(p: f64) -> (f64, f64) {
    if cfg!(own_sine) {
        return p.sin_cos();
    }
    use std::f64::consts::PI;
    const H: f64 = PI / 2.0;
    let (r, q) = if p < -1.5 * H {
        (p + PI, 2)
    } else if p < -0.5 * H {
        (p + H, 3)
    } else if p < 0.5 * H {
        (p, 0)
    } else if p < 1.5 * H {
        (p - H, 1)
    } else {
        (p - PI, 2)
    };
    let z = r * r;
    let s = r * horner(z, &SINE);
    let c = horner(z, &COSINE);
    match q {
        0 => (s, c),
        1 => (c, -s),
        2 => (-s, -c),
        _ => (-c, s),
    }
}

/// (-1)^n / (2n + odd)! for n from 0.
const fn coefficients<const N: usize>(odd: u64) -> [f64; N] {
    let mut all = [0.0; N];
    let mut factorial: u64 = 1;
    let mut sign = 1.0;
    let mut n = 0;
    while n < N {
        all[n] = sign / factorial as f64;
        let next = 2 * n as u64 + odd + 1;
        factorial *= next * (next + 1);
        sign = -sign;
        n += 1;
    }
    all
}

const SINE: [f64; 7] = coefficients(1);
const COSINE: [f64; 8] = coefficients(0);

/// The Horner sum, highest coefficient first.
#[inline]
fn horner<const N: usize>(z: f64, coefficients: &[f64; N]) -> f64 {
    let mut sum = coefficients[N - 1];
    let mut k = N - 1;
    while k > 0 {
        k -= 1;
        sum = sum * z + coefficients[k];
    }
    sum
}

/// Stands in for the `OnceLock` of the filter banks: its value is made again once other taps are lent.
pub struct OnceLock<T: 'static> {
    made: UnsafeCell<Option<(u64, &'static T)>>,
}

unsafe impl<T> Sync for OnceLock<T> {}

impl<T> OnceLock<T> {
    pub const fn new() -> OnceLock<T> {
        OnceLock {
            made: UnsafeCell::new(None),
        }
    }

    #[inline]
    pub fn get_or_init<F: FnOnce() -> T>(&self, f: F) -> &T {
        let made = unsafe { &mut *self.made.get() };
        match made {
            Some((number, v)) if *number == own().number => v,
            _ => {
                let v: &'static T = Box::leak(Box::new(f()));
                *made = Some((own().number, v));
                v
            }
        }
    }
}

/// The algebraic operators of floats, which this compiler may not have yet. Nothing that is timed uses them.
pub trait Algebraic {
    fn algebraic_add(self, rhs: Self) -> Self;
    fn algebraic_sub(self, rhs: Self) -> Self;
    fn algebraic_mul(self, rhs: Self) -> Self;
    fn algebraic_div(self, rhs: Self) -> Self;
}

impl Algebraic for f32 {
    fn algebraic_add(self, rhs: f32) -> f32 {
        self + rhs
    }
    fn algebraic_sub(self, rhs: f32) -> f32 {
        self - rhs
    }
    fn algebraic_mul(self, rhs: f32) -> f32 {
        self * rhs
    }
    fn algebraic_div(self, rhs: f32) -> f32 {
        self / rhs
    }
}
