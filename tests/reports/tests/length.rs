//! Refusals 1 and 8: how many bytes there are.

use charts::Chart;
use reports::each::each;
use reports::hold::{accepts, says};
use second::limits::{LONGEST, NODES};

#[test]
fn no_bytes_give_1() {
    says(&[], "refused 1 at 0");
}

#[test]
fn up_to_7_bytes_give_1_whatever_they_are() {
    let sample = Chart::sample().bytes();
    each(&[1, 2, 3, 4, 5, 6, 7], |&size| {
        says(&sample[..size], "refused 1 at 0");
        says(&vec![0; size], "refused 1 at 0");
        says(&vec![255; size], "refused 1 at 0");
    });
}

#[test]
fn the_sample_cut_anywhere_after_its_header_gives_8() {
    let sample = Chart::sample().bytes();
    let sizes: Vec<usize> = (8..32).collect();
    each(&sizes, |&size| says(&sample[..size], "refused 8 at 0"));
    accepts(&sample, 3, 1);
}

#[test]
fn bytes_after_the_last_record_give_8() {
    let sample = Chart::sample().bytes();
    each(&[1, 7, 8, 9, 16], |&more| {
        let mut longer = sample.clone();
        longer.resize(sample.len() + more, 0);
        says(&longer, "refused 8 at 0");
    });
}

#[test]
fn a_count_one_off_the_records_gives_8() {
    for nodes in [2, 4] {
        let mut chart = Chart::sample();
        chart.header.nodes = nodes;
        says(&chart.bytes(), "refused 8 at 0");
    }
}

#[test]
fn the_longest_chart_passes_and_one_byte_off_gives_8() {
    let longest = Chart::steps(NODES).bytes();
    assert_eq!(longest.len(), LONGEST);
    accepts(&longest, NODES, 0);
    says(&longest[..LONGEST - 1], "refused 8 at 0");
    let mut longer = longest.clone();
    longer.push(0);
    says(&longer, "refused 8 at 0");
}
