//! The part of `crc` that the reference uses: a remainder worked out bit by bit, highest bit first. Only for algorithms
//! that reflect nothing, as the Mode S one.

pub struct Algorithm<W> {
    pub width: u8,
    pub poly: W,
    pub init: W,
    pub refin: bool,
    pub refout: bool,
    pub xorout: W,
    pub check: W,
    pub residue: W,
}

pub struct Crc<W: 'static> {
    algorithm: &'static Algorithm<W>,
}

impl Crc<u32> {
    pub const fn new(algorithm: &'static Algorithm<u32>) -> Crc<u32> {
        Crc { algorithm }
    }

    pub fn checksum(&self, bytes: &[u8]) -> u32 {
        let a = self.algorithm;
        assert!(!a.refin && !a.refout && a.width < 32);
        let top = 1 << (a.width - 1);
        let mask = (1 << a.width) - 1;
        let mut rest = a.init;
        for &byte in bytes {
            for k in (0..8).rev() {
                let bit = u32::from(byte >> k) & 1;
                let carry = u32::from(rest & top != 0) ^ bit;
                rest = (rest << 1) & mask;
                if carry != 0 {
                    rest ^= a.poly;
                }
            }
        }
        rest ^ a.xorout
    }
}
