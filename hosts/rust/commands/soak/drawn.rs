//! The draws of a soak, and normal values for its noise: made of `exact` and square roots, and so the same on every machine.
use crate::draws::{Level, Random, WEIGHTS};
use crate::exact::ln;
use std::f64::consts::{LN_10, PI, SQRT_2};

const LAYERS: usize = 256;
/// Where the lowest layer of the ziggurat ends, the density's value there (exp(-x^2 / 2)), and the area of a layer.
const EDGE: f64 = 3.654_152_885_361_008_8;
const EDGE_DENSITY: f64 = 0.001_260_285_930_498_597_5;
const AREA: f64 = 0.004_928_673_233_974_655;
const PLACES: f64 = (1u64 << 52) as f64;

/// Normal values by the ziggurat of Marsaglia and Tsang: 256 layers of one area, a random layer, and a place in it. Its tables
/// come from `ln` and square roots, and wedges and tail are decided by `ln`.
pub struct Normal {
    /// The density at edge k, to which layer k reaches; 0 and 1 at the ends.
    densities: [f64; LAYERS + 1],
    /// An edge's 2^52nd part, and how many of them are surely below the density.
    steps: [f64; LAYERS],
    sure: [u64; LAYERS],
}

impl Normal {
    pub fn new() -> Normal {
        // The lowest layer is a box of the same area up to its `EDGE`, and the tail behind it.
        let (mut edges, mut densities) = ([0.0; LAYERS + 1], [1.0; LAYERS + 1]);
        (edges[0], edges[1], densities[0], densities[1]) = (AREA / EDGE_DENSITY, EDGE, 0.0, EDGE_DENSITY);
        for k in 2..LAYERS {
            densities[k] = AREA / edges[k - 1] + densities[k - 1];
            edges[k] = (-2.0 * ln(densities[k])).sqrt();
        }
        let steps = std::array::from_fn(|k| edges[k] / PLACES);
        let sure = std::array::from_fn(|k| (edges[k + 1] / edges[k] * PLACES) as u64);
        Normal { densities, steps, sure }
    }

    #[inline]
    pub fn next(&self, random: &mut Random) -> f64 {
        let word = random.next();
        match self.part(word) {
            (x, true) => x,
            (x, false) => self.outside(word, x, random),
        }
    }

    /// What a random word stands for: a place in a layer, bits 12 to 63 in the layer of bits 0 to 7, negative where bit 8 is set;
    /// and whether it is surely below the density.
    #[inline]
    fn part(&self, word: u64) -> (f64, bool) {
        let (layer, place) = ((word & 0xff) as usize, word >> 12);
        let x = place as i64 as f64 * self.steps[layer];
        (f64::from_bits(x.to_bits() | (word & 0x100) << 55), place < self.sure[layer])
    }

    /// Beyond what is surely below the density, and so in the tail or at a wedge: this value or another.
    #[cold]
    fn outside(&self, word: u64, x: f64, random: &mut Random) -> f64 {
        let layer = (word & 0xff) as usize;
        if layer == 0 {
            return tail(random).copysign(x);
        }
        let (low, high) = (self.densities[layer], self.densities[layer + 1]);
        let density = low + random.uniform() * (high - low);
        if ln(density) < -0.5 * x * x { x } else { self.next(random) }
    }
}

/// A normal value beyond `EDGE`, by Marsaglia.
fn tail(random: &mut Random) -> f64 {
    loop {
        let x = -ln(1.0 - random.uniform()) / EDGE;
        let y = -ln(1.0 - random.uniform());
        if y + y > x * x {
            return EDGE + x;
        }
    }
}

/// What draws are drawn by.
pub struct Draws {
    pub rates: [f64; 7],
    pub sample_rate: f64,
    /// One level for every reply; else each has its own, by distance.
    pub level: Option<Level>,
    pub clock_max: f64,
}

/// Rates of the usual weights that add up to some replies a second.
pub fn usual_rates(replies: f64) -> [f64; 7] {
    WEIGHTS.map(|weight| weight * replies)
}

impl Draws {
    /// The level of a sender from 10 to 300 km away, evenly by area, at 100 dB Hz from 10 km.
    fn sender(&self, random: &mut Random) -> Level {
        let square = 1e2 + (9e4 - 1e2) * random.uniform(); // of the distance in km
        let cn0 = 120.0 - 10.0 / LN_10 * ln(square);
        let amplitude = 1e6 / square.sqrt() * SQRT_2 / 1024.0 / self.sample_rate.sqrt();
        Level { cn0, amplitude: amplitude as f32 }
    }

    fn kind(&self, total: f64, random: &mut Random) -> usize {
        let mut left = random.uniform() * total;
        let above = |rate: &f64| {
            left -= rate;
            left < 0.0
        };
        // Rounding can leave a rest behind the last type.
        let last = self.rates.iter().rposition(|rate| *rate > 0.0).unwrap_or(0);
        self.rates.iter().position(above).unwrap_or(last)
    }

    /// The next draw (SPECIFICATION 4.4): an exponential gap, a type by its rate, and all that replies of any type are made of.
    pub fn next(&self, random: &mut Random, normal: &Normal, draws: &mut Vec<u8>) {
        let total = self.rates.iter().fold(0.0, |sum, rate| sum + rate);
        let gap = ((0.0 - ln(1.0 - random.uniform())) * self.sample_rate / total).min(f64::MAX);
        let kind = self.kind(total, random);
        let sender = self.sender(random);
        let Level { cn0, amplitude } = self.level.unwrap_or(sender);
        let format = random.below([2, 1, 3, 1, 11, 1, 1][kind]);
        let capability = random.below(if kind == 0 && format == 1 { 6 } else { 5 });
        draws.extend(gap.to_le_bytes());
        draws.push(kind as u8);
        draws.extend(cn0.to_le_bytes());
        draws.extend(amplitude.to_le_bytes());
        draws.extend(normal.next(random).to_le_bytes());
        draws.extend(((2.0 * random.uniform() - 1.0) * PI).to_le_bytes());
        draws.extend(((2.0 * random.uniform() - 1.0) * self.clock_max).to_le_bytes());
        draws.extend([format, capability, 1 + random.below(127)]);
        draws.extend(random.next().to_le_bytes());
        draws.extend(&random.next().to_le_bytes()[..6]);
        draws.extend(((random.next() & 4095) as u16).to_le_bytes());
        draws.push(u8::from(random.uniform() < 0.05));
    }
}
