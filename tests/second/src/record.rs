//! One node's 64 bits and their rules.

use crate::bits::Bits;
use crate::fields::Fields;

/// The numbers of a record, allowed or not, and also such as its fields cannot hold.
#[derive(Clone, Copy, Debug, PartialEq, Eq)]
pub struct RecordFields {
    pub kind: u64,
    pub address: u64,
    /// How many arrows lead out.
    pub outs: u64,
    pub first: u64,
    pub second: u64,
    /// The size code.
    pub size: u64,
}

impl RecordFields {
    /// Those that are told, or given, in the order of rules 15.1 and 15.3.
    pub fn of([kind, address, size, outs, first, second]: [u64; 6]) -> RecordFields {
        RecordFields {
            kind,
            address,
            outs,
            first,
            second,
            size,
        }
    }

    /// In the order of these rules.
    pub fn numbers(&self) -> [u64; 6] {
        [self.kind, self.address, self.size, self.outs, self.first, self.second]
    }

    /// Takes them from eight bytes, in the order of rule 2.1.
    pub fn take(bytes: [u8; 8]) -> RecordFields {
        let mut fields = Fields::of(bytes);
        let mut take = |width| fields.take(width).into();
        RecordFields {
            kind: take(2),
            address: take(32),
            outs: take(2),
            first: take(12),
            second: take(12),
            size: take(4),
        }
    }

    /// Puts them in that order. Each has to fit its field.
    pub fn put(&self, bits: &mut Bits) {
        bits.put(2, self.kind);
        bits.put(32, self.address);
        bits.put(2, self.outs);
        bits.put(12, self.first);
        bits.put(12, self.second);
        bits.put(4, self.size);
    }
}

/// A record that keeps its rules.
#[derive(Clone, Copy, Debug, PartialEq, Eq)]
pub struct Record {
    /// What is read or written, which is all the same (rule 2.8); a bare step has none.
    pub reference: Option<Reference>,
    pub arrows: Arrows,
}

/// So many bytes from an address on.
#[derive(Clone, Copy, Debug, PartialEq, Eq)]
pub struct Reference {
    pub first: u32,
    bytes: u32,
}

impl Reference {
    /// As many bytes as a size code says; nothing if there is no such code, or no address for the last byte (rules 2.10 and 2.12).
    fn of(first: u64, size: u64) -> Option<Reference> {
        let bytes = *[1, 2, 4].get(usize::try_from(size).ok()?)?;
        let end = u128::from(first) + u128::from(bytes);
        (end <= 1 << 32).then_some(Reference {
            first: first as u32,
            bytes,
        })
    }

    /// The addresses of its bytes.
    pub fn addresses(self) -> impl Iterator<Item = u32> {
        (0..self.bytes).map(move |byte| self.first + byte)
    }
}

/// Up to two arrows out of a node.
#[derive(Clone, Copy, Debug, PartialEq, Eq)]
pub struct Arrows {
    targets: [usize; 2],
    used: usize,
}

impl Arrows {
    /// The targets, first arrow first.
    pub fn targets(&self) -> &[usize] {
        &self.targets[..self.used]
    }
}

impl Record {
    /// The record that these numbers say in a chart of so many nodes, or nothing if it breaks a rule.
    pub fn of(fields: RecordFields, nodes: usize) -> Option<Record> {
        let reference = match (fields.kind, fields.address, fields.size) {
            (0, 0, 0) => None,
            (1 | 2, address, size) => Some(Reference::of(address, size)?),
            _ => return None,
        };
        if fields.outs > 2 {
            return None;
        }
        let (targets, used) = ([fields.first, fields.second], fields.outs as usize);
        let (leading, unused) = targets.split_at(used);
        let inside = leading.iter().all(|&target| target < nodes as u64);
        let clear = unused.iter().all(|&target| target == 0);
        // two arrows have two targets (rule 2.9)
        let twins = matches!(leading, [one, other] if one == other);
        (inside && clear && !twins).then_some(Record {
            reference,
            arrows: Arrows {
                targets: targets.map(|target| target as usize),
                used,
            },
        })
    }

    /// The record of eight bytes.
    pub fn read(bytes: [u8; 8], nodes: usize) -> Option<Record> {
        Record::of(RecordFields::take(bytes), nodes)
    }
}
