//! Running Graphviz: a child process that is handed a source and gives a layout back, within a limit of time.

use crate::child::ended;
use std::ffi::OsStr;
use std::io::{ErrorKind, Read, Write};
use std::process::{Child, Command, Stdio};
use std::sync::mpsc::channel;
use std::thread;
use std::time::{Duration, Instant};

/// Graphviz's program for charts like these.
pub const DOT: &str = "dot";

/// So long it may take. The largest charts took some seconds.
pub const PATIENCE: Duration = Duration::from_secs(60);

/// No more is read of what it writes: the largest layouts are far shorter.
const MOST: u64 = 32 << 20;

/// Why there is no layout.
#[derive(Clone, Copy, Debug, PartialEq, Eq)]
pub enum Unlaid {
    /// There is no such program.
    Missing,
    /// It cannot be run, or leaves nothing that can be read.
    Failed,
    /// It takes too long.
    Late,
}

/// What a program writes of a source, as `dot -Tplain`. Arrows go from middle to middle, and have no heads: these are drawn later.
pub fn plain(program: &OsStr, source: String, patience: Duration) -> Result<String, Unlaid> {
    let child = Command::new(program)
        .args(["-Tplain", "-Edir=none", "-Eheadclip=false", "-Etailclip=false"])
        // numbers with a point, whatever the language
        .env("LC_ALL", "C")
        .stdin(Stdio::piped())
        .stdout(Stdio::piped())
        .stderr(Stdio::null())
        .spawn();
    let mut child = child.map_err(|error| match error.kind() {
        ErrorKind::NotFound => Unlaid::Missing,
        _ => Unlaid::Failed,
    })?;
    let last = Instant::now() + patience;
    let written = exchanged(&mut child, source, patience);
    let succeeded = ended(&mut child, last);
    let written = written?;
    match succeeded {
        Some(true) => Ok(written),
        Some(false) => Err(Unlaid::Failed),
        None => Err(Unlaid::Late),
    }
}

/// Hands a child a text and takes what it writes, until it has written all. Neither waits for the other, nor for one that does not end.
fn exchanged(child: &mut Child, source: String, patience: Duration) -> Result<String, Unlaid> {
    let (Some(mut to), Some(from)) = (child.stdin.take(), child.stdout.take()) else {
        return Err(Unlaid::Failed);
    };
    let (done, written) = channel();
    thread::spawn(move || {
        // it may stop reading, and what it writes then tells
        let _ = to.write_all(source.as_bytes());
    });
    thread::spawn(move || {
        let mut text = String::new();
        let read = from.take(MOST).read_to_string(&mut text);
        // nobody may be waiting any more
        let _ = done.send(read.map(|_| text));
    });
    match written.recv_timeout(patience) {
        Ok(read) => read.map_err(|_| Unlaid::Failed),
        Err(_) => Err(Unlaid::Late),
    }
}
