use crate::{Header, Record};

/// A header and what follows it. The header's number of nodes need not be the number of records.
#[derive(Clone, Debug, PartialEq)]
pub struct Chart {
    pub header: Header,
    pub records: Vec<Record>,
}

impl Chart {
    /// These records under the sample's header.
    pub fn of(records: Vec<Record>) -> Chart {
        Chart {
            header: Header::of(records.len()),
            records,
        }
    }

    /// So many bare steps without arrows.
    pub fn steps(nodes: usize) -> Chart {
        Chart::of(vec![Record::step(); nodes])
    }

    /// A read of each address without arrows: all but the first are unreachable.
    pub fn reads(addresses: &[u64]) -> Chart {
        Chart::of(addresses.iter().map(|&address| Record::read(address)).collect())
    }

    /// The same with an arrow from each node to the next.
    pub fn straight(addresses: &[u64]) -> Chart {
        Chart::reads(addresses).in_a_row()
    }

    /// The same chart with one arrow more from each node to the next.
    pub fn in_a_row(mut self) -> Chart {
        for node in 1..self.records.len() {
            self.records[node - 1] = self.records[node - 1].to(node as u64);
        }
        self
    }

    /// The same chart in a cache of 2^`sets` sets of so many ways, from such a start.
    pub fn shaped(mut self, sets: u64, ways: u64, start: u64) -> Chart {
        (self.header.sets, self.header.ways, self.header.start) = (sets, ways, start);
        self
    }

    /// The sample, which is the loop of docs/RULES.md: a step, a read that loops on itself, a read.
    pub fn sample() -> Chart {
        Chart::of(vec![Record::step().to(1), Record::read(0).to(1).to(2), Record::read(0)])
    }

    pub fn bytes(&self) -> Vec<u8> {
        let mut bytes = self.header.bytes().to_vec();
        for record in &self.records {
            bytes.extend(record.bytes());
        }
        bytes
    }
}

#[cfg(test)]
mod tests {
    use super::*;

    #[test]
    fn the_sample_packs_to_the_bytes_of_section_14() {
        let bytes = [
            0x01, 0x40, 0x24, 0x00, 0x00, 0x30, 0x00, 0x00, //
            0x00, 0x00, 0x00, 0x00, 0x10, 0x01, 0x00, 0x00, //
            0x40, 0x00, 0x00, 0x00, 0x20, 0x01, 0x00, 0x20, //
            0x40, 0x00, 0x00, 0x00, 0x00, 0x00, 0x00, 0x00,
        ];
        assert_eq!(Chart::sample().bytes(), bytes);
    }
}
