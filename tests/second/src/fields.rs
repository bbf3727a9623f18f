/// The fields of a header or a record: 64 bits, one field against the next, each with its most significant bit in front (rule 1.1).
pub struct Fields(u64);

impl Fields {
    pub fn of(bytes: [u8; 8]) -> Fields {
        Fields(u64::from_be_bytes(bytes))
    }

    /// Takes the next field, of up to 32 bits.
    pub fn take(&mut self, width: u32) -> u32 {
        let field = self.0 >> (64 - width);
        self.0 <<= width;
        field as u32
    }
}

#[cfg(test)]
mod tests {
    use super::*;

    /// The same field gathered bit by bit from the bytes.
    fn gathered(bytes: [u8; 8], from: u32, width: u32) -> u32 {
        (from..from + width).fold(0, |value, at| {
            let bit = bytes[at as usize / 8] >> (7 - at % 8) & 1;
            value * 2 + u32::from(bit)
        })
    }

    #[test]
    fn fields_follow_each_other_most_significant_bit_first() {
        let bytes = [0xA5, 0x3C, 0x0F, 0x99, 0x81, 0x42, 0x6E, 0xD7];
        for widths in [
            &[8, 4, 4, 4, 2, 10, 12, 12, 8][..],
            &[2, 32, 2, 12, 12, 4],
            &[1, 1, 1, 29, 32],
        ] {
            let mut fields = Fields::of(bytes);
            let mut from = 0;
            for &width in widths {
                assert_eq!(fields.take(width), gathered(bytes, from, width));
                from += width;
            }
            assert_eq!(from, 64);
        }
    }
}
