//! FNV-1a over 64 bits, for telling two runs apart.

/// A checksum in the making.
pub struct Checksum(u64);

impl Default for Checksum {
    /// The checksum of no bytes.
    fn default() -> Self {
        Checksum(0xcbf2_9ce4_8422_2325)
    }
}

impl Checksum {
    /// Takes in more bytes: for each, exclusive or, then times 2^40 + 2^8 + 0xb3.
    pub fn add(&mut self, bytes: &[u8]) {
        for byte in bytes {
            self.0 = (self.0 ^ u64::from(*byte)).wrapping_mul(0x0000_0100_0000_01b3);
        }
    }

    /// The checksum of all bytes so far.
    pub fn value(&self) -> u64 {
        self.0
    }
}
