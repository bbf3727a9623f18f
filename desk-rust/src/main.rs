//! The desk: from the words of a call to standard output, standard error and an exit status.

use desk::args::{asked, for_a_script, Asked};
use desk::help::help;
use desk::run::{run, Output};
use desk::trouble::{Trouble, ANSWERED, NOT_ASKED};
use std::env;
use std::ffi::OsString;
use std::io::{self, IsTerminal, Write};
use std::process::ExitCode;

fn main() -> ExitCode {
    let words: Vec<OsString> = env::args_os().skip(1).collect();
    let for_a_script = for_a_script(&words);
    let (out, status) = match answered(words, for_a_script) {
        Ok(answered) => answered,
        Err(trouble) if for_a_script => (format!("{}\n", trouble.json()).into_bytes(), trouble.status()),
        Err(trouble) => {
            // where nobody can be told, the status still tells
            let _ = io::stderr().write_all(trouble.words().as_bytes());
            (vec![], trouble.status())
        }
    };
    let mut stdout = io::stdout().lock();
    ExitCode::from(match stdout.write_all(&out).and_then(|()| stdout.flush()) {
        Ok(()) => status,
        // who reads no further has been told enough
        Err(error) if error.kind() == io::ErrorKind::BrokenPipe => NOT_ASKED,
        Err(error) => {
            let _ = writeln!(io::stderr(), "desk: standard output cannot be written: {error}");
            NOT_ASKED
        }
    })
}

/// What goes to standard output, and the exit status.
fn answered(words: Vec<OsString>, for_a_script: bool) -> Result<(Vec<u8>, u8), Trouble> {
    let call = match asked(words)? {
        Asked::Help(command) => return Ok((help(command).into(), ANSWERED)),
        Asked::Version => return Ok((format!("desk {}\n", veilbuzz::VERSION).into(), ANSWERED)),
        Asked::Run(call) => call,
    };
    Ok(match run(&call)? {
        Output::Bytes(bytes) => (bytes, ANSWERED),
        Output::Answer(answer) if for_a_script => (format!("{}\n", answer.json()).into(), answer.status()),
        Output::Answer(answer) => (answer.words(coloured()).into(), answer.status()),
    })
}

/// Colours are for people: only a terminal gets them, and not where they are not wanted (no-color.org).
fn coloured() -> bool {
    let unwanted = env::var_os("NO_COLOR").is_some_and(|value| !value.is_empty());
    io::stdout().is_terminal() && !unwanted
}
