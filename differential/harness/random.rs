//! Numbers from a seed (SplitMix64), the same on every machine.

pub struct Random {
    state: u64,
}

impl Random {
    pub fn new(seed: u64) -> Random {
        Random { state: seed }
    }

    pub fn word(&mut self) -> u64 {
        self.state = self.state.wrapping_add(0x9e37_79b9_7f4a_7c15);
        let mut z = self.state;
        z = (z ^ (z >> 30)).wrapping_mul(0xbf58_476d_1ce4_e5b9);
        z = (z ^ (z >> 27)).wrapping_mul(0x94d0_49bb_1331_11eb);
        z ^ (z >> 31)
    }

    /// A number below n.
    pub fn below(&mut self, n: usize) -> usize {
        (self.word() % n as u64) as usize
    }

    /// A number from a to b, both included.
    pub fn between(&mut self, a: usize, b: usize) -> usize {
        a + self.below(b - a + 1)
    }

    /// True once in n times.
    pub fn once_in(&mut self, n: usize) -> bool {
        self.below(n) == 0
    }

    pub fn pick<T: Copy>(&mut self, list: &[T]) -> T {
        list[self.below(list.len())]
    }

    /// From 0 to below 1.
    pub fn unit(&mut self) -> f64 {
        (self.word() >> 11) as f64 / (1u64 << 53) as f64
    }

    /// From -x to x.
    pub fn within(&mut self, x: f64) -> f64 {
        (2.0 * self.unit() - 1.0) * x
    }

    /// About normal, with deviation 1.
    pub fn normal(&mut self) -> f64 {
        (0..12).map(|_| self.unit()).sum::<f64>() - 6.0
    }

    pub fn bytes<const N: usize>(&mut self) -> [u8; N] {
        std::array::from_fn(|_| self.word() as u8)
    }

    /// Any f64: any bits, now and then special ones.
    pub fn any_f64(&mut self) -> f64 {
        match self.below(4) {
            0 => f64::from_bits(self.word()),
            1 => self.within(1.0) * 10f64.powi(self.below(40) as i32 - 20),
            2 => self.within(1e6).round() / 2.0,
            _ => self.pick(&SPECIAL),
        }
    }

    /// Any f64, or one half way between two values of f32, or one near a whole number.
    pub fn argument(&mut self) -> f64 {
        match self.below(4) {
            0 => {
                let low = f32::from_bits((self.word() as u32) % 0x7f7f_ffff);
                let middle = (f64::from(low) + f64::from(low.next_up())) / 2.0;
                let near = self.pick(&[middle, middle.next_up(), middle.next_down()]);
                if self.once_in(2) { near } else { -near }
            }
            1 => {
                let whole = (self.within(1.0) * 2f64.powi(self.below(66) as i32)).round();
                self.pick(&[whole, whole.next_up(), whole.next_down()])
            }
            _ => self.any_f64(),
        }
    }
}

/// Values of f64 at which rounding, ranges or signs change.
pub const SPECIAL: [f64; 24] = [
    0.0,
    -0.0,
    1.0,
    -1.0,
    0.5,
    -0.5,
    f64::MIN_POSITIVE,
    5e-324,
    -5e-324,
    f64::MAX,
    f64::MIN,
    f64::INFINITY,
    f64::NEG_INFINITY,
    f64::NAN,
    std::f64::consts::PI,
    -std::f64::consts::PI,
    9007199254740992.0,
    -9007199254740992.0,
    9223372036854775807.0,
    -9223372036854775808.0,
    4503599627370495.5,
    3.4028235677973366e38,
    1.401298464324817e-45,
    7.006492321624085e-46,
];
