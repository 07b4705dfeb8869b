//! Bit fields side by side, most significant bit first.

/// Reads fields from the front of a slice of bytes.
pub struct Reader<'a> {
    bytes: &'a [u8],
    at: usize,
}

impl<'a> Reader<'a> {
    pub fn new(bytes: &'a [u8]) -> Self {
        Reader { bytes, at: 0 }
    }

    /// The first bit not yet read.
    pub fn at(&self) -> usize {
        self.at
    }

    /// The next field of 1 to 32 bits; `None` if the bytes end before or inside it.
    pub fn take(&mut self, width: usize) -> Option<u32> {
        let end = self.at + width;
        if end > self.bytes.len() * 8 {
            return None;
        }
        let before = self.at % 8;
        let value = self.window() << before >> (64 - width);
        self.at = end;
        Some(value as u32)
    }

    /// The eight bytes from the one that holds the next bit, with zeros past the end.
    fn window(&self) -> u64 {
        let rest = &self.bytes[self.at / 8..];
        match rest.first_chunk::<8>() {
            Some(eight) => u64::from_be_bytes(*eight),
            None => (0..8).fold(0, |sum, place| sum << 8 | *rest.get(place).unwrap_or(&0) as u64),
        }
    }

    /// The bytes that were read from, the last of them perhaps in part.
    pub fn begun(&self) -> usize {
        self.at.div_ceil(8)
    }

    /// Whether only zero bits are left in the byte that was read last.
    pub fn is_filled_up(&self) -> bool {
        let rest = (self.begun() * 8 - self.at) as u32;
        let mask = (1u32 << rest) - 1;
        rest == 0 || self.bytes[self.begun() - 1] as u32 & mask == 0
    }

    /// Whether that is so, and no byte follows.
    pub fn is_spent(&self) -> bool {
        self.begun() == self.bytes.len() && self.is_filled_up()
    }
}

/// Writes fields one after another.
#[derive(Default)]
pub struct Writer {
    bytes: Vec<u8>,
    at: usize,
}

impl Writer {
    pub fn new() -> Self {
        Writer::default()
    }

    /// Appends the low `width` bits of `value`.
    pub fn put(&mut self, value: u32, width: usize) {
        for shift in (0..width).rev() {
            if self.at.is_multiple_of(8) {
                self.bytes.push(0);
            }
            let bit = (value >> shift & 1) as u8;
            *self.bytes.last_mut().unwrap() |= bit << (7 - self.at % 8);
            self.at += 1;
        }
    }

    /// The bytes, with zero bits after the last field.
    pub fn finish(self) -> Vec<u8> {
        self.bytes
    }
}

#[cfg(test)]
mod tests {
    use super::*;

    #[test]
    fn fields_come_back_as_written() {
        let fields = [(1, 1), (5, 3), (0, 2), (0xabcdef, 24), (300, 9), (7, 3), (0, 20), (0xff, 8)];
        let mut writer = Writer::new();
        fields.iter().for_each(|&(value, width)| writer.put(value, width));
        let bytes = writer.finish();
        let mut reader = Reader::new(&bytes);
        for (value, width) in fields {
            assert_eq!(reader.take(width), Some(value));
        }
        assert!(reader.is_spent());
    }

    #[test]
    fn a_field_that_ends_outside_is_not_read() {
        let mut reader = Reader::new(&[0xff, 0x80]);
        assert_eq!(reader.take(9), Some(0x1ff));
        assert_eq!(reader.take(8), None);
        assert_eq!(reader.at(), 9);
        assert_eq!(reader.take(7), Some(0));
        assert_eq!(reader.take(1), None);
        assert!(reader.is_spent());
    }

    #[test]
    fn set_bits_and_later_bytes_are_left_over() {
        let mut reader = Reader::new(&[0b1010_0001]);
        reader.take(3);
        assert!(!reader.is_spent() && !reader.is_filled_up());
        let mut reader = Reader::new(&[0b1010_0000, 0]);
        reader.take(3);
        assert!(!reader.is_spent() && reader.is_filled_up());
        assert_eq!(reader.begun(), 1);
        assert!(Reader::new(&[]).is_spent());
    }
}
