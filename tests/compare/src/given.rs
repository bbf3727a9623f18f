use charts::{Chart, Record};
use second::chart::records;
use second::fields::Fields;
use second::header::HeaderFields;
use second::limits::length;
use second::record::RecordFields;
use second::writer::{self, Lists};
use std::array::from_fn;
use std::collections::BTreeSet;

/// What a chart is written from, allowed or not: the header's six numbers and six lists, in the order of rule 15.3.
#[derive(Clone, Debug, PartialEq, Eq, Hash)]
pub struct Given {
    pub header: [u64; 6],
    pub lists: [Vec<u64>; 6],
}

/// Where some of the numbers stand, and each of the lists.
pub const NODES: usize = 4;
pub const ENTRY: usize = 5;
pub const KINDS: usize = 0;
pub const ADDRESSES: usize = 1;
pub const SIZES: usize = 2;
pub const OUTS: usize = 3;
pub const FIRSTS: usize = 4;
pub const SECONDS: usize = 5;

/// The bits of each one's field.
pub const HEADER_WIDTHS: [u32; 6] = [4, 4, 4, 2, 12, 12];
pub const LIST_WIDTHS: [u32; 6] = [2, 32, 4, 2, 12, 12];

impl Given {
    /// A header's numbers, and those of each record.
    pub fn of(header: [u64; 6], records: &[RecordFields]) -> Given {
        let list = |field: usize| records.iter().map(|record| record.numbers()[field]).collect();
        Given {
            header,
            lists: from_fn(list),
        }
    }

    /// What a chart in the making holds.
    pub fn of_chart(chart: &Chart) -> Given {
        let header = HeaderFields {
            line: chart.header.line,
            sets: chart.header.sets,
            ways: chart.header.ways,
            start: chart.header.start,
            nodes: chart.header.nodes,
            entry: chart.header.entry,
        };
        let record = |record: &Record| RecordFields {
            kind: record.kind,
            address: record.address,
            outs: record.outs,
            first: record.first,
            second: record.second,
            size: record.size,
        };
        let records: Vec<RecordFields> = chart.records.iter().map(record).collect();
        Given::of(header.numbers(), &records)
    }

    /// What bytes hold, accepted or not; nothing if no numbers of these fields have such bytes.
    pub fn of_bytes(bytes: &[u8]) -> Option<Given> {
        let mut fields = Fields::of(*bytes.first_chunk()?);
        let [_, line, sets, ways, start, _, nodes, entry] =
            [8, 4, 4, 4, 2, 10, 12, 12].map(|width| fields.take(width).into());
        let records: Vec<RecordFields> = records(bytes).collect();
        let given = Given::of([line, sets, ways, start, nodes, entry], &records);
        given.packed().filter(|packed| packed == bytes).map(|_| given)
    }

    /// The bytes of these numbers by the second program, which asks no rule; nothing if one does not fit its field, or if the lists are
    /// not equally long: no bytes hold that.
    pub fn packed(&self) -> Option<Vec<u8>> {
        let fits = |(&number, width): (&u64, u32)| number >> width == 0;
        let all_fit = |(list, width): (&Vec<u64>, u32)| list.iter().all(|number| fits((number, width)));
        if !self.header.iter().zip(HEADER_WIDTHS).all(fits) || !self.lists.iter().zip(LIST_WIDTHS).all(all_fit) {
            return None;
        }
        let records = writer::records(self.to_lists(), self.lists[KINDS].len())?;
        Some(writer::packed(self.to_header(), &records))
    }

    /// The blocks that its references touch, ascending, if the numbers are allowed.
    pub fn blocks(&self) -> Vec<u32> {
        let nodes = (0..self.lists[KINDS].len()).filter(|&node| self.lists[KINDS][node] > 0);
        let blocks = nodes.flat_map(|node| {
            let (first, size) = (self.lists[ADDRESSES][node], self.lists[SIZES][node]);
            [first, first + (1 << size) - 1].map(|byte| (byte >> self.header[0]) as u32)
        });
        blocks.collect::<BTreeSet<u32>>().into_iter().collect()
    }

    pub fn to_header(&self) -> HeaderFields {
        HeaderFields::of(self.header)
    }

    pub fn to_lists(&self) -> Lists<'_> {
        from_fn(|list| self.lists[list].as_slice())
    }

    /// The bytes that are used of a buffer, if the numbers are allowed; else as many as the kinds would need.
    pub fn used(&self) -> usize {
        length(self.lists[KINDS].len())
    }
}
