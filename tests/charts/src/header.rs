use crate::pack::pack;

/// The header's fields in their order.
#[derive(Clone, Copy, Debug, PartialEq)]
pub struct Header {
    pub edition: u64,
    pub line: u64,
    pub sets: u64,
    pub ways: u64,
    pub start: u64,
    /// The ten spare bits after the start code.
    pub spare: u64,
    pub nodes: u64,
    pub entry: u64,
    /// The eight spare bits at the end.
    pub tail: u64,
}

impl Header {
    /// 16-byte lines, one set of two ways, empty, entry 0: the sample's header, for so many nodes.
    pub fn of(nodes: usize) -> Header {
        Header {
            edition: 1,
            line: 4,
            sets: 0,
            ways: 2,
            start: 1,
            spare: 0,
            nodes: nodes as u64,
            entry: 0,
            tail: 0,
        }
    }

    pub fn bytes(&self) -> [u8; 8] {
        pack(&[
            (8, self.edition),
            (4, self.line),
            (4, self.sets),
            (4, self.ways),
            (2, self.start),
            (10, self.spare),
            (12, self.nodes),
            (12, self.entry),
            (8, self.tail),
        ])
    }
}

#[cfg(test)]
mod tests {
    use super::*;

    #[test]
    fn each_header_field_has_its_own_bits() {
        let header = Header {
            edition: 0xAB,
            line: 0xC,
            sets: 0xD,
            ways: 0xE,
            start: 0b10,
            spare: 0b01_0010_0011,
            nodes: 0x456,
            entry: 0x789,
            tail: 0xF0,
        };
        assert_eq!(header.bytes(), [0xAB, 0xCD, 0xE9, 0x23, 0x45, 0x67, 0x89, 0xF0]);
    }

    #[test]
    #[should_panic(expected = "does not fit")]
    fn a_value_too_wide_for_its_field_is_not_packed() {
        let header = Header {
            ways: 16,
            ..Header::of(1)
        };
        header.bytes();
    }
}
