//! SHA-256 (FIPS 180-4), so that what two machines wrote is compared by one line. `sha256sum` prints the same digits.

const BLOCK_LEN: usize = 64;
const ROUNDS: usize = 64;
const LENGTH_AT: usize = 56;

/// The first 32 bits of the fractional part of a root of each of the first primes.
fn roots<const N: usize>(root: fn(u128) -> u32) -> [u32; N] {
    let prime = |n: &u128| (2..*n).take_while(|d| d * d <= *n).all(|d| n % d != 0);
    let mut primes = (2u128..).filter(prime);
    std::array::from_fn(|_| primes.next().map_or(0, root))
}

/// The largest x whose power is at most n.
fn integer_root(n: u128, power: u32) -> u128 {
    let mut x = 0u128;
    for bit in (0..40).rev() {
        let next = x | 1 << bit;
        if next.checked_pow(power).is_some_and(|p| p <= n) {
            x = next;
        }
    }
    x
}

fn square_root(prime: u128) -> u32 {
    integer_root(prime << 64, 2) as u32
}

fn cube_root(prime: u128) -> u32 {
    integer_root(prime << 96, 3) as u32
}

#[derive(Clone)]
pub struct Sha256 {
    constants: [u32; ROUNDS],
    state: [u32; 8],
    block: Vec<u8>,
    length: u64,
}

impl Sha256 {
    pub fn new() -> Sha256 {
        Sha256 { constants: roots(cube_root), state: roots(square_root), block: Vec::with_capacity(BLOCK_LEN), length: 0 }
    }

    pub fn put(&mut self, mut bytes: &[u8]) {
        self.length += bytes.len() as u64;
        if !self.block.is_empty() {
            let (first, rest) = bytes.split_at(bytes.len().min(BLOCK_LEN - self.block.len()));
            self.block.extend(first);
            bytes = rest;
            if self.block.len() < BLOCK_LEN {
                return;
            }
            let block = std::mem::take(&mut self.block);
            self.take(&block);
        }
        let mut blocks = bytes.chunks_exact(BLOCK_LEN);
        for block in &mut blocks {
            self.take(block);
        }
        self.block.extend(blocks.remainder());
    }

    fn schedule(block: &[u8]) -> [u32; ROUNDS] {
        let mut w = [0u32; ROUNDS];
        for (word, b) in w.iter_mut().zip(block.chunks_exact(4)) {
            *word = u32::from_be_bytes([b[0], b[1], b[2], b[3]]);
        }
        for k in 16..ROUNDS {
            let (x, y) = (w[k - 15], w[k - 2]);
            let low = x.rotate_right(7) ^ x.rotate_right(18) ^ (x >> 3);
            let high = y.rotate_right(17) ^ y.rotate_right(19) ^ (y >> 10);
            w[k] = w[k - 16].wrapping_add(low).wrapping_add(w[k - 7]).wrapping_add(high);
        }
        w
    }

    fn take(&mut self, block: &[u8]) {
        let w = Self::schedule(block);
        let [mut a, mut b, mut c, mut d, mut e, mut f, mut g, mut h] = self.state;
        for (word, constant) in w.iter().zip(&self.constants) {
            let sum = e.rotate_right(6) ^ e.rotate_right(11) ^ e.rotate_right(25);
            let choice = (e & f) ^ (!e & g);
            let one = h.wrapping_add(sum).wrapping_add(choice).wrapping_add(*constant).wrapping_add(*word);
            let sum = a.rotate_right(2) ^ a.rotate_right(13) ^ a.rotate_right(22);
            let two = sum.wrapping_add((a & b) ^ (a & c) ^ (b & c));
            (h, g, f, e, d, c, b, a) = (g, f, e, d.wrapping_add(one), c, b, a, one.wrapping_add(two));
        }
        for (s, x) in self.state.iter_mut().zip([a, b, c, d, e, f, g, h]) {
            *s = s.wrapping_add(x);
        }
    }

    /// The sum of all that was put, in hexadecimal digits.
    pub fn hex(mut self) -> String {
        let bits = 8 * self.length;
        let zeros = (BLOCK_LEN + LENGTH_AT - 1 - self.length as usize % BLOCK_LEN) % BLOCK_LEN;
        let mut end = vec![0x80];
        end.resize(1 + zeros, 0);
        end.extend(bits.to_be_bytes());
        self.put(&end);
        self.state.iter().map(|word| format!("{word:08x}")).collect()
    }
}
