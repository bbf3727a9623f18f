//! Running the desk as a program.

use std::io::Write;
use std::path::Path;
use std::process::{Command, Stdio};

/// The desk that was built with these tests.
pub const DESK: &str = env!("CARGO_BIN_EXE_desk");

/// What a run leaves.
#[derive(Debug)]
pub struct Said {
    pub out: String,
    pub err: String,
    pub status: i32,
}

/// The desk with these words, called in a folder.
pub fn desk(folder: &Path, words: &[&str]) -> Command {
    let mut command = Command::new(DESK);
    command.current_dir(folder).args(words);
    command
}

/// What a command leaves that is handed these bytes. It ends by itself, with a status that the desk has.
pub fn said(mut command: Command, input: &[u8]) -> Said {
    command
        .stdin(Stdio::piped())
        .stdout(Stdio::piped())
        .stderr(Stdio::piped());
    let mut child = command.spawn().expect("the desk starts");
    // it may have stopped reading, which is no fault
    let _ = child.stdin.take().expect("standard input is open").write_all(input);
    let output = child.wait_with_output().expect("the desk ends");
    let text = |bytes| String::from_utf8(bytes).expect("the desk writes UTF-8");
    let said = Said {
        out: text(output.stdout),
        err: text(output.stderr),
        status: output.status.code().unwrap_or(-1),
    };
    assert!(
        (0..=3).contains(&said.status),
        "the desk ended with {}: {}",
        output.status,
        said.err
    );
    said
}
