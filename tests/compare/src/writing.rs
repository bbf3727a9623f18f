//! The writer: held to the second program's, to the reader, and to what is read back.

use crate::apart::taken;
use crate::ask;
use crate::draw::{self, CHART_LENGTH};
use crate::given::Given;
use crate::guarded::{noise, word, Guarded};
use crate::raw_parts;
use crate::same::{holds, same, Held};
use crate::tally::Tally;
use crate::written::remember;
use charts::random::Random;
use veilbuzz::{Header, Refusal};

/// How the answers to what a chart's bytes hold are counted, by the number of the refusal, which is the reader's; 0 for the same bytes.
pub const AGAIN: &str = "written again, refusal";

/// The same for bytes that the second program has made of what the writer was given.
pub const AS_READ: &str = "refused as the bytes are, refusal";

/// Charts that were written and read back.
pub const READ_BACK: &str = "written and read back";

/// What a chart's bytes hold, to the writer: it refuses as the reader has refused the bytes, or writes them again.
pub fn again(random: &mut Random, tally: &mut Tally, chart: &[u8], reader: Result<Header, Refusal>) -> Held {
    let given = match reader {
        Ok(header) => Some(taken(random, tally, chart, header)?),
        Err(_) => Given::of_bytes(chart),
    };
    let Some(given) = given else { return Ok(()) };
    let length = given.used() + random.below(4) as usize;
    let lent = Guarded::of(random, length, noise);
    let (answer, left) = ask::write(random, tally, &given, &lent)?;
    let read = reader.map(|_| chart.len());
    holds(answer == read, || {
        format!("written again it is {answer:?}, and read {read:?}")
    })?;
    tally.at(AGAIN, answer.map_or_else(|refusal| refusal.number, |_| 0));
    if answer.is_ok() {
        holds(left.lent()[..chart.len()] == *chart, || {
            format!("written again it is {:?}", &left.lent()[..chart.len()])
        })?;
        remember(tally, &given, chart)?;
    }
    Ok(())
}

/// Numbers and lists of any kind, to the writer, with a buffer of any length. Whether it writes a chart.
pub fn hold(random: &mut Random, tally: &mut Tally, given: &Given) -> Held<bool> {
    let length = draw::length(random, tally, CHART_LENGTH, given.used());
    hold_with(random, tally, given, length)
}

/// The same with a buffer of such a length.
pub fn hold_with(random: &mut Random, tally: &mut Tally, given: &Given, length: usize) -> Held<bool> {
    let lent = Guarded::of(random, length, noise);
    let held = written(random, tally, given, &lent);
    held.map_err(|words| format!("{words}\nwritten from {given:?} to {length} bytes"))
}

/// Writes to what is lent, holds a refusal to the reader's, and reads back what was written.
fn written(random: &mut Random, tally: &mut Tally, given: &Given, lent: &Guarded<u8>) -> Held<bool> {
    let (answer, left) = ask::write(random, tally, given, lent)?;
    if random.once_in(4) {
        raw_parts::write(random, tally, given, lent)?;
    }
    if let Some(bytes) = given.packed() {
        as_read(tally, answer, &bytes)?;
    }
    if let Ok(length) = answer {
        read_back(random, tally, given, &left.lent()[..length])?;
    }
    Ok(answer.is_ok())
}

/// Numbers that fit their fields are refused as the reader refuses their bytes; only for want of room are they refused where it accepts.
fn as_read(tally: &mut Tally, answer: Result<usize, Refusal>, bytes: &[u8]) -> Held {
    let read = ask::read(tally, bytes)?;
    let agree = match (answer, read) {
        (Ok(length), Ok(_)) => length == bytes.len(),
        (Err(refusal), Ok(_)) => refusal.number == 11,
        (answer, Err(refusal)) => answer == Err(refusal),
    };
    holds(agree, || format!("written it is {answer:?}, and read {read:?}"))?;
    tally.at(AS_READ, read.map_or_else(|refusal| refusal.number, |_| 0));
    Ok(())
}

/// What was written reads back to the same numbers, and to their blocks; and no other numbers have these bytes.
fn read_back(random: &mut Random, tally: &mut Tally, given: &Given, bytes: &[u8]) -> Held {
    let header = ask::read(tally, bytes)?.map_err(|refusal| format!("what was written is {refusal}"))?;
    let told = taken(random, tally, bytes, header)?;
    same("what is read back", &told, given)?;
    let lent = Guarded::of(random, header.blocks, word);
    let (answer, blocks) = ask::blocks(tally, bytes, &lent)?;
    let own = given.blocks();
    holds(answer == Ok(own.len()) && blocks.lent() == own, || {
        format!(
            "the blocks that are read back are {answer:?}, {:?}, and not {own:?}",
            blocks.lent()
        )
    })?;
    tally.add(READ_BACK);
    remember(tally, given, bytes)
}
