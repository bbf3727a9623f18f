/// Bits in a row, to be made into bytes: fields lie one against the next, each with its most significant bit in front (rule 1.1).
#[derive(Default)]
pub struct Bits(Vec<bool>);

impl Bits {
    /// Puts a field behind the others. It has to fit its width.
    pub fn put(&mut self, width: u32, field: u64) {
        assert!(field < 1 << width, "{field} does not fit into {width} bits");
        self.0.extend((0..width).rev().map(|place| field & 1 << place != 0));
    }

    /// Whole bytes of them, and no bit behind.
    pub fn bytes(&self) -> Vec<u8> {
        assert_eq!(self.0.len() % 8, 0, "the fields fill bytes");
        let mut bytes = vec![0; self.0.len() / 8];
        for place in (0..self.0.len()).filter(|&place| self.0[place]) {
            bytes[place / 8] |= 0x80 >> (place % 8);
        }
        bytes
    }
}

#[cfg(test)]
mod tests {
    use super::*;
    use crate::fields::Fields;

    #[test]
    fn what_is_put_is_what_is_taken() {
        for widths in [&[8, 4, 4, 4, 2, 10, 12, 12, 8][..], &[2, 32, 2, 12, 12, 4]] {
            // one field after the other has its first bit, its last or all of them, and the others none
            for set in 0..widths.len() {
                let width = widths[set];
                for field in [1 << (width - 1), 1, u64::MAX >> (64 - width)] {
                    let mut bits = Bits::default();
                    for (place, &width) in widths.iter().enumerate() {
                        bits.put(width, if place == set { field } else { 0 });
                    }
                    let bytes = bits.bytes().try_into().expect("the fields are eight bytes");
                    let mut fields = Fields::of(bytes);
                    for (place, &width) in widths.iter().enumerate() {
                        let taken = u64::from(fields.take(width));
                        assert_eq!(taken, if place == set { field } else { 0 });
                    }
                }
            }
        }
    }

    #[test]
    #[should_panic(expected = "4096 does not fit into 12 bits")]
    fn a_field_too_wide_is_not_put() {
        Bits::default().put(12, 1 << 12);
    }
}
