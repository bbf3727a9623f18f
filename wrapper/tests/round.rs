//! There and back: a chart that is taken apart and put together again has the same bytes, and what is refused stays refused.

mod given;

use charts::random::Random;
use charts::random_charts::whole;
use charts::{Chart, Record};
use given::{fields, heading};
use std::fs;
use veilbuzz::{blocks, chart_of, fields_of, read, Analysis, Fields, Heading, Refusal, BLOCKS};

/// The charts of the folder, by name.
fn folder() -> Vec<(String, Vec<u8>)> {
    let folder = concat!(env!("CARGO_MANIFEST_DIR"), "/../charts");
    let files = fs::read_dir(folder).expect("the folder can be listed");
    files
        .map(|file| file.expect("the folder can be listed").path())
        .filter(|path| path.extension().is_some_and(|ending| ending == "chart"))
        .map(|path| {
            let bytes = fs::read(&path).expect("a chart can be read");
            (path.file_stem().expect("a name").to_string_lossy().into(), bytes)
        })
        .collect()
}

/// A chart taken apart and put together again.
fn again(chart: &[u8]) -> Result<Vec<u8>, Refusal> {
    let (header, nodes) = fields_of(chart)?;
    chart_of(header.into(), &nodes)
}

fn listed(chart: &[u8]) -> Result<Vec<u32>, Refusal> {
    let mut list = vec![0; BLOCKS];
    let count = blocks(chart, &mut list)?;
    list.truncate(count);
    Ok(list)
}

#[test]
fn each_chart_of_the_folder_comes_back_with_its_bytes_and_its_blocks() {
    let mut accepted = 0;
    for (name, bytes) in folder() {
        if name.starts_with("refused-") {
            continue;
        }
        let written = again(&bytes).unwrap_or_else(|refusal| panic!("{name}: {refusal}"));
        let analysis = Analysis::of(&bytes).expect("what is taken apart is accepted");
        assert_eq!(written, bytes, "{name}");
        assert_eq!(listed(&written), Ok(analysis.blocks), "{name}");
        accepted += 1;
    }
    assert!(accepted >= 16, "only {accepted} charts");
}

#[test]
fn each_refused_chart_of_the_folder_is_refused_by_all_alike() {
    let sample = Chart::sample();
    let mut refused = 0;
    for (name, bytes) in folder() {
        let Err(refusal) = read(&bytes) else { continue };
        assert!(name.starts_with("refused-"), "{name}: {refusal}");
        assert_eq!(again(&bytes), Err(refusal), "{name}");
        assert_eq!(listed(&bytes), Err(refusal), "{name}");
        // they have the sample's header, and what is wrong with them is in their records: so they cannot be written either
        assert_eq!(bytes[..8], sample.header.bytes(), "{name}");
        let records = bytes[8..].chunks_exact(8);
        let record = |bytes: &[u8]| Record::of_bytes(bytes.try_into().expect("a record has eight bytes"));
        let nodes: Vec<Fields> = records.map(|bytes| fields(record(bytes))).collect();
        assert_eq!(chart_of(heading(sample.header), &nodes), Err(refusal), "{name}");
        refused += 1;
    }
    assert!(refused >= 3, "only {refused} charts");
}

#[test]
fn random_fields_are_written_and_told_again_or_refused_as_the_reader_does() {
    let mut random = Random::new(20_251_116);
    let (mut accepted, mut refused) = (0, 0);
    for _ in 0..400 {
        let chart = whole(&mut random);
        let nodes: Vec<Fields> = chart.records.iter().copied().map(fields).collect();
        match chart_of(heading(chart.header), &nodes) {
            Ok(written) => {
                let (header, told) = fields_of(&written).expect("what was written is accepted");
                assert_eq!((Heading::from(header), told), (heading(chart.header), nodes));
                assert_eq!(written, chart.bytes());
                accepted += 1;
            }
            Err(refusal) => {
                assert_eq!(read(&chart.bytes()), Err(refusal));
                refused += 1;
            }
        }
    }
    assert!(
        accepted >= 200 && refused >= 5,
        "{accepted} accepted and {refused} refused"
    );
}

#[test]
fn a_heading_counts_its_nodes() {
    let sample = Chart::sample();
    let nodes: Vec<Fields> = sample.records.iter().copied().map(fields).collect();
    assert_eq!(chart_of(heading(sample.header), &nodes), Ok(sample.bytes()));
    let wrong = Err(Refusal { number: 8, place: 0 });
    assert_eq!(chart_of(heading(sample.header), &nodes[..2]), wrong);
    assert_eq!(chart_of(heading(sample.header), &[]), wrong);
    let more = [&nodes[..], &nodes].concat();
    assert_eq!(chart_of(heading(sample.header), &more), wrong);
}
