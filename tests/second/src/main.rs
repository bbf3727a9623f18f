//! A chart on standard input, its report on standard output; the status is 0 after a report, 1 after a refusal, 2 where not all could be
//! written.

use second::report::{report, INPUT};
use std::io::{stdin, stdout, Read, Write};
use std::process::ExitCode;

fn main() -> ExitCode {
    let mut input = Vec::new();
    // A read that fails ends the input, as its end would: what came before it is answered.
    let _ = stdin().take(INPUT as u64).read_to_end(&mut input);
    let report = report(&input);
    let written = stdout().write_all(report.as_bytes()).and_then(|()| stdout().flush());
    match written {
        Ok(()) => ExitCode::from(u8::from(report.starts_with("refused "))),
        Err(_) => ExitCode::from(2),
    }
}
