//! What the lent buffers hold after each kind of answer.

use charts::Chart;
use second::analysis::Analysed;
use second::lending::Lending;
use second::limits::TOUCHES;
use second::refusal::Refusal;

/// What stands in each buffer before the analysis, and after it in the tails.
const BEFORE: u8 = 77;

const NODES: usize = 4;
const BLOCKS: usize = 3;

/// Four reads of three blocks that take two passes.
fn chart() -> Vec<u8> {
    Chart::straight(&[0x20, 0x00, 0x70, 0x00]).bytes()
}

/// Buffers with room for one block and two nodes more.
fn longer() -> Lending {
    Lending::of(BLOCKS + 1, NODES + 2, BEFORE)
}

/// Holds a buffer to what is used of it and to its old tail.
fn holds(buffer: &[u8], used: &[u8]) {
    let (head, tail) = buffer.split_at(used.len());
    assert_eq!(head, used);
    assert!(!tail.is_empty() && tail.iter().all(|&byte| byte == BEFORE));
}

#[test]
fn a_settled_chart_is_written_whole_and_tails_are_kept() {
    let mut lending = longer();
    let settled = Analysed::Settled {
        passes: 2,
        blocks: BLOCKS,
    };
    assert_eq!(lending.analyse(&chart(), 2), settled);
    assert_eq!(lending.blocks, [0x0, 0x2, 0x7, u32::from(BEFORE)]);
    // one set of two ways, empty
    let ages = [2, 2, 2, 2, 0, 2, 0, 1, 2, 1, 2, 0];
    holds(&lending.must, &ages);
    holds(&lending.may, &ages);
    holds(&lending.marks, &[1; NODES]);
    holds(&lending.classes, &[2, 4, 2, 4, 2, 4, 1, 4]);
}

#[test]
fn refusal_12_writes_the_blocks_and_zeros() {
    let mut lending = longer();
    let unsettled = Analysed::Unsettled {
        allowance: 1,
        blocks: BLOCKS,
    };
    assert_eq!(lending.analyse(&chart(), 1), unsettled);
    assert_eq!(lending.blocks, [0x0, 0x2, 0x7, u32::from(BEFORE)]);
    holds(&lending.must, &[0; NODES * BLOCKS]);
    holds(&lending.may, &[0; NODES * BLOCKS]);
    holds(&lending.marks, &[0; NODES]);
    holds(&lending.classes, &[0; TOUCHES * NODES]);
}

#[test]
fn a_buffer_one_too_short_is_refusal_11_and_nothing_changes() {
    let exact = Lending::of(BLOCKS, NODES, BEFORE);
    assert!(matches!(exact.clone().analyse(&chart(), 9), Analysed::Settled { .. }));
    let shortened: [fn(&mut Lending); 5] = [
        |lending| lending.blocks.truncate(BLOCKS - 1),
        |lending| lending.must.truncate(NODES * BLOCKS - 1),
        |lending| lending.may.truncate(NODES * BLOCKS - 1),
        |lending| lending.marks.truncate(NODES - 1),
        |lending| lending.classes.truncate(TOUCHES * NODES - 1),
    ];
    for shorten in shortened {
        let mut lending = exact.clone();
        shorten(&mut lending);
        let before = lending.clone();
        assert_eq!(lending.analyse(&chart(), 9), Analysed::Refused(Refusal::of(11)));
        assert_eq!(lending, before);
    }
}

#[test]
fn refusals_of_the_chart_go_before_short_buffers_and_change_nothing() {
    let mut none = Lending::of(0, 0, BEFORE);
    assert_eq!(none.analyse(&[], 9), Analysed::Refused(Refusal::of(1)));
    let mut lending = longer();
    assert_eq!(lending.analyse(&chart()[..39], 9), Analysed::Refused(Refusal::of(8)));
    assert_eq!(lending, longer());
}

#[test]
fn short_buffers_go_before_the_allowance() {
    let mut none = Lending::of(0, 0, BEFORE);
    assert_eq!(none.analyse(&chart(), 0), Analysed::Refused(Refusal::of(11)));
}
