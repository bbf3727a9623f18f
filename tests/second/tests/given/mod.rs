//! What a chart is written from.

use charts::{Chart, Record};
use second::header::HeaderFields;
use second::limits::LONGEST;
use second::record::RecordFields;
use second::refusal::Refusal;
use second::writer::{write, Lists};
use std::array::from_fn;

#[derive(Clone, Debug, PartialEq)]
pub struct Given {
    pub header: HeaderFields,
    pub lists: [Vec<u64>; 6],
}

impl Given {
    pub fn of(header: HeaderFields, records: &[RecordFields]) -> Given {
        let list = |field: usize| records.iter().map(|record| record.numbers()[field]).collect();
        Given {
            header,
            lists: from_fn(list),
        }
    }

    pub fn chart(chart: &Chart) -> Given {
        let header = HeaderFields {
            line: chart.header.line,
            sets: chart.header.sets,
            ways: chart.header.ways,
            start: chart.header.start,
            nodes: chart.header.nodes,
            entry: chart.header.entry,
        };
        let record = |record: &Record| RecordFields {
            kind: record.kind,
            address: record.address,
            outs: record.outs,
            first: record.first,
            second: record.second,
            size: record.size,
        };
        let records: Vec<RecordFields> = chart.records.iter().map(record).collect();
        Given::of(header, &records)
    }

    pub fn lists(&self) -> Lists<'_> {
        from_fn(|field| self.lists[field].as_slice())
    }

    pub fn write(&self, lent: &mut [u8]) -> Result<usize, Refusal> {
        write(self.header, self.lists(), lent)
    }

    /// The bytes that are written where there is room for any chart; else the refusal. What is lent stays as it was behind them, or whole.
    pub fn written(&self) -> Result<Vec<u8>, Refusal> {
        const BEFORE: u8 = 77;
        let mut lent = vec![BEFORE; LONGEST + 3];
        let answer = self.write(&mut lent);
        let tail = lent.split_off(answer.unwrap_or(0));
        assert!(tail.iter().all(|&byte| byte == BEFORE));
        answer.map(|_| lent)
    }
}
