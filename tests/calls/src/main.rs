//! Writes so many cases to standard output:  record 40000 [SEED]
//! Or those that are wrong on purpose, by their name:  record spoilt

use calls::{wrong, Case, SEED};
use std::env;
use std::io::{stdout, BufWriter, Result, Write};

fn main() -> Result<()> {
    let words: Vec<String> = env::args().skip(1).collect();
    let first = words.first().expect("record takes a number of cases or a name");
    match wrong::cases(first) {
        Some(cases) => write(cases.into_iter()),
        None => {
            let number = |word: &String| -> u64 { word.parse().expect("record takes a number of cases and a seed") };
            let seed = words.get(1).map_or(SEED, number);
            write((0..number(first)).map(|place| calls::case(seed, place)))
        }
    }
}

fn write(mut cases: impl Iterator<Item = Case>) -> Result<()> {
    let mut out = BufWriter::new(stdout().lock());
    cases.try_for_each(|case| case.write(&mut out))?;
    out.flush()
}
