//! Running the program.

use std::env;
use std::ffi::OsString;
use std::io::{Read, Write};
use std::path::{Path, PathBuf};
use std::process::{Child, Command, Stdio};
use std::thread;
use std::time::{Duration, Instant};

/// A file of the repository.
pub fn file(name: &str) -> PathBuf {
    Path::new(env!("CARGO_MANIFEST_DIR")).join("../..").join(name)
}

/// The program as `rt ci` and `rt run` build it.
pub const PROGRAM: &str = "crates/veilbuzz/out/veilbuzz";

/// What starts the program under test: tests/program, unless VEILBUZZ_PROGRAM names something else, as the second program's binary.
pub fn path() -> OsString {
    if let Some(other) = env::var_os("VEILBUZZ_PROGRAM") {
        return other;
    }
    assert!(
        file(PROGRAM).exists(),
        "the program is not built: run 'rt ci' (or ./tests/run, which does) and try again"
    );
    file("tests/program").into()
}

/// The command that runs the program, with its three streams piped.
pub fn command() -> Command {
    piped(Command::new(path()))
}

/// The command that runs the program after a line of shell, with its three streams piped.
pub fn command_after(line: &str) -> Command {
    let mut shell = Command::new("sh");
    shell.arg("-c").arg(format!("{line}; exec \"$0\"")).arg(path());
    piped(shell)
}

fn piped(mut command: Command) -> Command {
    command
        .stdin(Stdio::piped())
        .stdout(Stdio::piped())
        .stderr(Stdio::piped());
    command
}

/// Starts a command.
pub fn start(mut command: Command) -> Child {
    command.spawn().expect("the program starts")
}

/// Hands bytes to a started program. It may stop reading before the last, which is no fault.
pub fn hand(child: &mut Child, bytes: &[u8]) {
    let _ = child.stdin.as_mut().expect("standard input is open").write_all(bytes);
}

/// Closes a started program's input, and answers all that it wrote.
pub fn finish(mut child: Child) -> String {
    drop(child.stdin.take());
    let output = child.wait_with_output().expect("the program ends");
    let said = String::from_utf8_lossy(&output.stderr);
    let text = String::from_utf8(output.stdout).expect("the program writes ASCII");
    assert!(
        output.status.code() == Some(status_of(&text)) && said.is_empty(),
        "the program ended with {}: {said}",
        output.status
    );
    text
}

/// The status that the program ends with once it has written this: 0 after a report, 1 after a refusal.
pub fn status_of(text: &str) -> i32 {
    i32::from(text.starts_with("refused "))
}

/// The status where not all could be written.
pub const CUT: i32 = 2;

/// What the program writes for an input.
pub fn run(input: &[u8]) -> String {
    answer(command(), input)
}

/// What a command that runs the program writes for an input.
pub fn answer(command: Command, input: &[u8]) -> String {
    let mut child = start(command);
    hand(&mut child, input);
    finish(child)
}

/// Words of what valgrind finds. It also tells of a signal that ends the program, which is no fault here.
const FINDINGS: [&str; 3] = ["Invalid", "uninitialised", "lost"];

/// What an ended program has said on standard error.
fn said(child: &mut Child) -> String {
    let mut said = String::new();
    if let Some(mut error) = child.stderr.take() {
        error.read_to_string(&mut said).expect("standard error can be read");
    }
    said
}

/// The status that a started program ends with in peace within ten seconds; one that does not end is ended.
pub fn ends(child: &mut Child) -> Option<i32> {
    let last = Instant::now() + Duration::from_secs(10);
    while Instant::now() < last {
        if let Some(status) = child.try_wait().expect("the program can be asked") {
            let said = said(child);
            let found = FINDINGS.iter().any(|word| said.contains(word));
            let peaceful = matches!(status.code(), Some(0..=CUT));
            assert!(peaceful && !found, "the program ended with {status}: {said}");
            return status.code();
        }
        thread::sleep(Duration::from_millis(5));
    }
    child.kill().expect("the program can be ended");
    None
}

/// Whether a started program has not ended yet.
pub fn runs(child: &mut Child) -> bool {
    child.try_wait().expect("the program can be asked").is_none()
}
