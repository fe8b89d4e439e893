//! What is lent to the reference in place of chance: the trigger level, the taps, the draws and the noise of one tape, and the
//! specification's sine. The other stand-ins ask here. One run at a time in each thread.

use std::cell::{Cell, RefCell};

/// One draw of a tape, field by field in tape order.
#[derive(Debug, Clone, Copy, PartialEq)]
pub struct Draw {
    pub gap: f64,
    pub kind: u8,
    pub cn0: f64,
    pub amplitude: f32,
    pub carrier: f64,
    pub phase: f64,
    pub clock: f64,
    pub df_pick: u8,
    pub ca_pick: u8,
    pub overlay: u8,
    pub bytes: [u8; 14],
    pub data: u16,
    pub spi: u8,
}

/// What the reference panics with when it asks for a draw or a noise value that was not lent.
#[derive(Debug, Clone, Copy, PartialEq)]
pub enum RanOut {
    Draws,
    Noise,
}

thread_local! {
    static TAPS: RefCell<Vec<f32>> = const { RefCell::new(Vec::new()) };
    static LEVEL: Cell<f32> = const { Cell::new(0.5) };
    static TAPS_NUMBER: Cell<u64> = const { Cell::new(0) };
    static DRAWS: RefCell<Vec<Draw>> = const { RefCell::new(Vec::new()) };
    static TAKEN: Cell<usize> = const { Cell::new(0) };
    static NOISE: RefCell<Vec<f32>> = const { RefCell::new(Vec::new()) };
    static USED: Cell<usize> = const { Cell::new(0) };
    static ORIGINAL_SINE: Cell<bool> = const { Cell::new(false) };
    static LARGEST_DISTANCE: Cell<f64> = const { Cell::new(0.0) };
}

/// Lends the taps, 3,001 or 6,000, Mode S, then Mode A/C, and the trigger level of their delays.
pub fn lend_taps(taps: &[f32], level: f32) {
    TAPS.with_borrow_mut(|t| {
        let same = t.len() == taps.len() && t.iter().zip(taps).all(|(a, b)| a.to_bits() == b.to_bits());
        if !same || LEVEL.get().to_bits() != level.to_bits() {
            *t = taps.to_vec();
            LEVEL.set(level);
            TAPS_NUMBER.set(TAPS_NUMBER.get() + 1);
        }
    });
}

/// The trigger level that was lent with the taps.
pub fn trigger_level() -> f32 {
    LEVEL.get()
}

/// Lends draws and noise, from their first on.
pub fn lend(draws: &[Draw], noise: &[f32]) {
    DRAWS.with_borrow_mut(|d| *d = draws.to_vec());
    NOISE.with_borrow_mut(|n| *n = noise.to_vec());
    TAKEN.set(0);
    USED.set(0);
}

/// Makes the reference use its own `sin_cos` (true) or the steps of SPECIFICATION 6.11 (false).
pub fn use_original_sine(on: bool) {
    ORIGINAL_SINE.set(on);
}

/// How many draws were taken so far.
pub fn taken() -> usize {
    TAKEN.get()
}

/// The draw taken last.
pub fn draw() -> Draw {
    DRAWS.with_borrow(|d| d[TAKEN.get() - 1])
}

/// Takes the next draw and gives its gap, the first thing that is drawn for a message.
pub fn gap() -> f64 {
    let next = DRAWS.with_borrow(|d| d.get(TAKEN.get()).copied());
    match next {
        Some(d) => {
            TAKEN.set(TAKEN.get() + 1);
            d.gap
        }
        None => std::panic::panic_any(RanOut::Draws),
    }
}

/// The C/N0 of the draw taken last.
pub fn cn0() -> f64 {
    draw().cn0
}

/// The amplitude of the draw taken last.
pub fn amplitude() -> f32 {
    draw().amplitude
}

/// The next noise value.
pub fn noise() -> f32 {
    let next = NOISE.with_borrow(|n| n.get(USED.get()).copied());
    match next {
        Some(x) => {
            USED.set(USED.get() + 1);
            x
        }
        None => std::panic::panic_any(RanOut::Noise),
    }
}

/// The lent taps of the filter of that many taps: 1,486 for Mode S, 1,515 for Mode A/C; at 8 samples per pulse 2,971 and 3,029.
pub fn taps(count: usize) -> Vec<f32> {
    TAPS.with_borrow(|t| match count {
        1486 | 2971 => t[..count].to_vec(),
        1515 | 3029 => t[t.len() - count..].to_vec(),
        _ => panic!("no filter has {count} taps"),
    })
}

/// Sine and cosine, as the switch says. The distance of the two ways is kept, where it is the largest so far.
pub fn sin_cos(p: f64) -> (f64, f64) {
    let original = p.sin_cos();
    let steps = sin_cos_by_steps(p);
    let far = (original.0 - steps.0).abs().max((original.1 - steps.1).abs());
    if far > LARGEST_DISTANCE.get() {
        LARGEST_DISTANCE.set(far);
    }
    if ORIGINAL_SINE.get() { original } else { steps }
}

/// The largest distance of the sine or cosine of SPECIFICATION 6.11 from the original's, over all samples that were made.
pub fn largest_distance() -> f64 {
    LARGEST_DISTANCE.get()
}

/// The sine and cosine of p by SPECIFICATION 6.11.
pub fn sin_cos_by_steps(p: f64) -> (f64, f64) {
    use std::f64::consts::PI;
    const H: f64 = PI / 2.0;
    let (r, q) = if p < -1.5 * H {
        (p + PI, 2)
    } else if p < -0.5 * H {
        (p + H, 3)
    } else if p < 0.5 * H {
        (p, 0)
    } else if p < 1.5 * H {
        (p - H, 1)
    } else {
        (p - PI, 2)
    };
    let z = r * r;
    let s = r * horner(z, &SINE);
    let c = horner(z, &COSINE);
    match q {
        0 => (s, c),
        1 => (c, -s),
        2 => (-s, -c),
        _ => (-c, s),
    }
}

/// (-1)^n / (2n + odd)! for n from 0. Factorials up to 14! are exact as f64, so each quotient is the nearest f64.
const fn coefficients<const N: usize>(odd: u64) -> [f64; N] {
    let mut all = [0.0; N];
    let mut factorial: u64 = 1;
    let mut sign = 1.0;
    let mut n = 0;
    while n < N {
        all[n] = sign / factorial as f64;
        let next = 2 * n as u64 + odd + 1;
        factorial *= next * (next + 1);
        sign = -sign;
        n += 1;
    }
    all
}

const SINE: [f64; 7] = coefficients(1);
const COSINE: [f64; 8] = coefficients(0);

/// The Horner sum, highest coefficient first.
fn horner(z: f64, coefficients: &[f64]) -> f64 {
    let (top, rest) = coefficients.split_last().unwrap();
    rest.iter().rev().fold(*top, |sum, c| sum * z + c)
}

/// Stands in for the `OnceLock` of the filter banks: its value is made again once other taps or another trigger level
/// are lent in the thread. A value that was made stays for ever, as with `OnceLock`.
pub struct OnceLock<T: 'static> {
    made: std::sync::Mutex<Vec<(std::thread::ThreadId, u64, &'static T)>>,
}

impl<T> OnceLock<T> {
    pub const fn new() -> OnceLock<T> {
        OnceLock {
            made: std::sync::Mutex::new(Vec::new()),
        }
    }

    pub fn get_or_init<F: FnOnce() -> T>(&self, f: F) -> &T {
        let (thread, number) = (std::thread::current().id(), TAPS_NUMBER.get());
        let held = |m: &Vec<(std::thread::ThreadId, u64, &'static T)>| {
            m.iter()
                .find(|(t, n, _)| *t == thread && *n == number)
                .map(|(_, _, v)| *v)
        };
        if let Some(v) = held(&self.made.lock().unwrap()) {
            return v;
        }
        let v: &'static T = Box::leak(Box::new(f()));
        let mut m = self.made.lock().unwrap();
        m.retain(|(t, _, _)| *t != thread);
        m.push((thread, number, v));
        v
    }
}

/// The algebraic operators of floats, which this compiler may not have yet. Nothing that is compared uses them.
pub trait Algebraic {
    fn algebraic_add(self, rhs: Self) -> Self;
    fn algebraic_sub(self, rhs: Self) -> Self;
    fn algebraic_mul(self, rhs: Self) -> Self;
    fn algebraic_div(self, rhs: Self) -> Self;
}

impl Algebraic for f32 {
    fn algebraic_add(self, rhs: f32) -> f32 {
        self + rhs
    }
    fn algebraic_sub(self, rhs: f32) -> f32 {
        self - rhs
    }
    fn algebraic_mul(self, rhs: f32) -> f32 {
        self * rhs
    }
    fn algebraic_div(self, rhs: f32) -> f32 {
        self / rhs
    }
}
