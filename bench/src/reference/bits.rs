//! Bit fields packed most significant first, as in the sheet and the film.

/// Fields in the order in which they were put; bits never put are zero.
#[derive(Default)]
pub struct Packer {
    bytes: Vec<u8>,
    used: usize,
}

impl Packer {
    /// Adds the low `width` bits of `value`.
    pub fn put(&mut self, value: usize, width: usize) {
        for shift in (0..width).rev() {
            self.put_bit(value >> shift & 1 == 1);
        }
    }

    fn put_bit(&mut self, bit: bool) {
        if self.used == 8 * self.bytes.len() {
            self.bytes.push(0);
        }
        self.bytes[self.used / 8] |= u8::from(bit) << (7 - self.used % 8);
        self.used += 1;
    }

    pub fn into_bytes(self) -> Vec<u8> {
        self.bytes
    }
}

/// The field of `width` bits that starts `start` bits into `bytes`.
pub fn field(bytes: &[u8], start: usize, width: usize) -> usize {
    (start..start + width).fold(0, |value, at| {
        2 * value + usize::from(bytes[at / 8] >> (7 - at % 8) & 1)
    })
}
