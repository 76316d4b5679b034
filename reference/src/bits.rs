//! Fields packed most significant bit first with no gaps ("The packed record").

/// Writes fields.
#[derive(Default)]
pub struct Writer {
    bytes: Vec<u8>,
    bits: usize,
}

impl Writer {
    /// Adds the low `width` bits of a value, the most significant first.
    pub fn put(&mut self, value: usize, width: usize) {
        for place in (0..width).rev() {
            if self.bits == self.bytes.len() * 8 {
                self.bytes.push(0);
            }
            let bit = (value >> place & 1) as u8;
            self.bytes[self.bits / 8] |= bit << (7 - self.bits % 8);
            self.bits += 1;
        }
    }

    /// The bytes, with zero bits filling the last one.
    pub fn bytes(self) -> Vec<u8> {
        self.bytes
    }
}

/// Reads fields. The caller has made sure that there are bytes enough.
pub struct Reader<'a> {
    bytes: &'a [u8],
    bits: usize,
}

impl<'a> Reader<'a> {
    pub fn of(bytes: &'a [u8]) -> Self {
        Reader { bytes, bits: 0 }
    }

    /// The next `width` bits as a number.
    pub fn take(&mut self, width: usize) -> usize {
        let mut value = 0;
        for _ in 0..width {
            let bit = self.bytes[self.bits / 8] >> (7 - self.bits % 8) & 1;
            value = value << 1 | usize::from(bit);
            self.bits += 1;
        }
        value
    }

    /// All bits not yet taken are 0.
    pub fn rest_is_zero(&mut self) -> bool {
        let left = self.bytes.len() * 8 - self.bits;
        (0..left).all(|_| self.take(1) == 0)
    }
}
