//! Records of fixed size, little-endian.

/// Bytes that grow field by field.
#[derive(Default)]
pub struct Record(pub Vec<u8>);

impl Record {
    pub fn u8(&mut self, value: u8) -> &mut Record {
        self.0.push(value);
        self
    }

    pub fn u16(&mut self, value: u16) -> &mut Record {
        self.0.extend(value.to_le_bytes());
        self
    }

    pub fn u32(&mut self, value: u32) -> &mut Record {
        self.0.extend(value.to_le_bytes());
        self
    }

    pub fn u64(&mut self, value: u64) -> &mut Record {
        self.0.extend(value.to_le_bytes());
        self
    }
}

/// A polynomial in the words, modulo the largest prime below 2^32. Every step fits 64 bits.
pub fn hash(words: impl Iterator<Item = u32>) -> u32 {
    words.fold(1, |hash: u64, word| {
        (hash * 16_777_619 + word as u64) % 4_294_967_291
    }) as u32
}
