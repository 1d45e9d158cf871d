//! Bits of bytes in a row, the most significant bit of each byte first.

pub struct BitReader<'a> {
    bytes: &'a [u8],
    at: usize,
}

impl<'a> BitReader<'a> {
    pub fn new(bytes: &'a [u8]) -> Self {
        BitReader { bytes, at: 0 }
    }

    pub fn bit(&mut self) -> bool {
        let bit = self.bytes[self.at / 8] >> (7 - self.at % 8) & 1;
        self.at += 1;
        bit == 1
    }

    pub fn number(&mut self, width: usize) -> u32 {
        let mut n = 0;
        for _ in 0..width {
            n = n << 1 | u32::from(self.bit());
        }
        n
    }
}

pub struct BitWriter<'a> {
    bytes: &'a mut [u8],
    at: usize,
}

impl<'a> BitWriter<'a> {
    /// Writes from the first bit on; the bytes are cleared first.
    pub fn new(bytes: &'a mut [u8]) -> Self {
        bytes.fill(0);
        BitWriter { bytes, at: 0 }
    }

    pub fn bit(&mut self, bit: bool) {
        if bit {
            self.bytes[self.at / 8] |= 0x80 >> (self.at % 8);
        }
        self.at += 1;
    }

    pub fn number(&mut self, n: u32, width: usize) {
        for k in (0..width).rev() {
            self.bit(n >> k & 1 == 1);
        }
    }
}
