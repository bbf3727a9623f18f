use crate::pack::pack;
use second::fields::Fields;

/// A record's fields in their order.
#[derive(Clone, Copy, Debug, PartialEq)]
pub struct Record {
    pub kind: u64,
    pub address: u64,
    pub outs: u64,
    pub first: u64,
    pub second: u64,
    /// The size code.
    pub size: u64,
}

impl Record {
    fn of(kind: u64, address: u64) -> Record {
        Record {
            kind,
            address,
            outs: 0,
            first: 0,
            second: 0,
            size: 0,
        }
    }

    /// A bare step without arrows.
    pub fn step() -> Record {
        Record::of(0, 0)
    }

    /// A read of one byte without arrows.
    pub fn read(address: u64) -> Record {
        Record::of(1, address)
    }

    /// A write of one byte without arrows.
    pub fn write(address: u64) -> Record {
        Record::of(2, address)
    }

    /// The same with such a size code: 0 is one byte, 1 two, 2 four.
    pub fn sized(self, size: u64) -> Record {
        Record { size, ..self }
    }

    /// The same arrows with what another record does.
    pub fn doing(self, other: Record) -> Record {
        Record {
            outs: self.outs,
            first: self.first,
            second: self.second,
            ..other
        }
    }

    /// The same with one arrow more.
    pub fn to(self, target: u64) -> Record {
        match self.outs {
            0 => Record {
                outs: 1,
                first: target,
                ..self
            },
            1 => Record {
                outs: 2,
                second: target,
                ..self
            },
            _ => panic!("a record has two arrows at most"),
        }
    }

    /// Whether it has an arrow to that node.
    pub fn leads_to(&self, target: u64) -> bool {
        self.outs >= 1 && self.first == target || self.outs >= 2 && self.second == target
    }

    /// Whether two arrows lead to one node.
    pub fn has_twins(&self) -> bool {
        self.outs == 2 && self.first == self.second
    }

    /// The same with both arrows to one node.
    pub fn twins(self, target: u64) -> Record {
        Record {
            outs: 2,
            first: target,
            second: target,
            ..self
        }
    }

    /// The record of eight bytes.
    pub fn of_bytes(bytes: [u8; 8]) -> Record {
        let mut fields = Fields::of(bytes);
        let mut take = |width| fields.take(width).into();
        Record {
            kind: take(2),
            address: take(32),
            outs: take(2),
            first: take(12),
            second: take(12),
            size: take(4),
        }
    }

    pub fn bytes(&self) -> [u8; 8] {
        pack(&[
            (2, self.kind),
            (32, self.address),
            (2, self.outs),
            (12, self.first),
            (12, self.second),
            (4, self.size),
        ])
    }
}

#[cfg(test)]
mod tests {
    use super::*;

    #[test]
    fn each_record_field_has_its_own_bits() {
        let record = Record {
            kind: 0b10,
            address: 0x8000_0001,
            outs: 0b01,
            first: 0xABC,
            second: 0xDEF,
            size: 0x5,
        };
        assert_eq!(record.bytes(), [0xA0, 0x00, 0x00, 0x00, 0x5A, 0xBC, 0xDE, 0xF5]);
        assert_eq!(Record::of_bytes(record.bytes()), record);
    }
}
