//! Bit fields, most significant bit first.

pub struct Bits<'a> {
    bytes: &'a [u8],
    at: usize,
}

impl<'a> Bits<'a> {
    pub const fn new(bytes: &'a [u8]) -> Self {
        Self { bytes, at: 0 }
    }

    /// The next field of 1 to 64 bits, if it is whole.
    pub fn field(&mut self, width: usize) -> Option<u64> {
        if self.at + width > self.bytes.len() * 8 {
            return None;
        }

        // Nine bytes hold any field together with the bits before it.
        let first = self.at / 8;
        let wide = (first..first + 9).fold(0_u128, |sum, i| {
            sum << 8 | u128::from(self.bytes.get(i).copied().unwrap_or(0))
        });
        let shifted = wide >> (72 - self.at % 8 - width);
        self.at += width;

        Some((shifted & ((1 << width) - 1)) as u64)
    }

    /// Bits to the end of the current byte.
    pub const fn filling(&self) -> usize {
        (8 - self.at % 8) % 8
    }

    pub const fn at_end(&self) -> bool {
        self.at == self.bytes.len() * 8
    }
}
