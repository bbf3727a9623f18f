//! Writing a chart, and the refusals of it: 3 to 6 and 8 to 11 (rules 15.3 to 15.6).

use crate::bits::Bits;
use crate::chart::Chart;
use crate::header::{Header, HeaderFields};
use crate::record::{Record, RecordFields};
use crate::refusal::Refusal;

/// The six lists of rule 15.3, in its order: kinds, addresses, size codes, numbers of arrows, first arrows, second arrows.
pub type Lists<'a> = [&'a [u64]; 6];

/// What so many records hold by these lists, or nothing if one of them is longer or shorter than that.
pub fn records(lists: Lists, nodes: usize) -> Option<Vec<RecordFields>> {
    let record = |node: usize| RecordFields::of(lists.map(|list| list[node]));
    let long = lists.iter().all(|list| list.len() == nodes);
    long.then(|| (0..nodes).map(record).collect())
}

/// The bytes of a header and of records. No rule is asked: each number has to fit its field, and that is all.
pub fn packed(header: HeaderFields, records: &[RecordFields]) -> Vec<u8> {
    let mut bits = Bits::default();
    header.put(&mut bits);
    for record in records {
        record.put(&mut bits);
    }
    bits.bytes()
}

/// Writes a chart over the start of what is lent, and answers its length; or refuses, and what is lent is as it was.
pub fn write(fields: HeaderFields, lists: Lists, lent: &mut [u8]) -> Result<usize, Refusal> {
    let header = Header::of(fields)?;
    let records = records(lists, header.nodes).ok_or(Refusal::of(8))?;
    let breaks = |&node: &usize| Record::of(records[node], header.nodes).is_none();
    if let Some(node) = (0..header.nodes).find(breaks) {
        return Err(Refusal::at(9, node));
    }
    // numbers that keep their rules fit their fields; what is left is the reader's to say
    let bytes = packed(fields, &records);
    Chart::read(&bytes)?;
    let used = lent.get_mut(..bytes.len()).ok_or(Refusal::of(11))?;
    used.copy_from_slice(&bytes);
    Ok(bytes.len())
}
