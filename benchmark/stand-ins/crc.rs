//! The part of `crc` that the reference uses, by a table of 256 remainders as the published crate has it.

pub struct Algorithm<W> {
    pub width: u8,
    pub poly: W,
    pub init: W,
    pub refin: bool,
    pub refout: bool,
    pub xorout: W,
    pub check: W,
    pub residue: W,
}

pub struct Crc<W: 'static> {
    algorithm: &'static Algorithm<W>,
    table: [W; 256],
}

impl Crc<u32> {
    pub const fn new(algorithm: &'static Algorithm<u32>) -> Crc<u32> {
        let mut table = [0; 256];
        let mut k = 0;
        while k < 256 {
            let mut rest = (k as u32) << (algorithm.width - 8);
            let mut bit = 0;
            while bit < 8 {
                let carry = rest >> (algorithm.width - 1) & 1;
                rest = (rest << 1) ^ carry * algorithm.poly;
                bit += 1;
            }
            table[k] = rest & ((1 << algorithm.width) - 1);
            k += 1;
        }
        Crc { algorithm, table }
    }

    pub fn checksum(&self, bytes: &[u8]) -> u32 {
        let a = self.algorithm;
        let mut rest = a.init;
        for &byte in bytes {
            let index = (rest >> (a.width - 8) & 0xff) as usize ^ usize::from(byte);
            rest = (rest << 8 ^ self.table[index]) & ((1 << a.width) - 1);
        }
        rest ^ a.xorout
    }
}
