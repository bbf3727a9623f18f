//! Running glpsol on a program: a child process, and two files in a folder of their own.

use crate::child::ended;
use crate::solution::{solution, Solution};
use std::fs::{self, DirBuilder, File};
use std::io::{self, Read};
use std::os::unix::fs::DirBuilderExt;
use std::path::{Path, PathBuf};
use std::process::{self, Command, Stdio};
use std::sync::atomic::{AtomicUsize, Ordering};
use std::time::{Duration, Instant};
use std::{env, iter};

/// GLPK's solver. Whether what it finds is right is not for it to say: the proved function looks at that.
pub const SOLVER: &str = "glpsol";

/// So many seconds it may take. The largest charts took less than one.
const SECONDS: &str = "60";

/// It is waited for a little longer, whether it keeps to that or not.
const PATIENCE: Duration = Duration::from_secs(70);

/// No more is read of its solution: the largest are far shorter.
const MOST: u64 = 32 << 20;

/// Why there is no solution to go by.
#[derive(Clone, Copy, Debug, PartialEq, Eq)]
pub enum Unsolved {
    /// There is no such program.
    Missing,
    /// No file can be written for it.
    Unwritten,
    /// It cannot be run, or leaves nothing that can be read.
    Failed,
}

/// What the solver makes of a program with so many first columns.
pub fn solved(program: &str, columns: usize) -> Result<Solution, Unsolved> {
    let folder = Folder::new().map_err(|_| Unsolved::Unwritten)?;
    let [given, found] = ["program.lp", "solution"].map(|name| folder.0.join(name));
    fs::write(&given, program).map_err(|_| Unsolved::Unwritten)?;
    let child = Command::new(SOLVER)
        .args(["--nopresol", "--tmlim", SECONDS, "--lp"])
        .arg(&given)
        .arg("--write")
        .arg(&found)
        .stdin(Stdio::null())
        .stdout(Stdio::null())
        .stderr(Stdio::null())
        .spawn();
    let mut child = child.map_err(|error| match error.kind() {
        io::ErrorKind::NotFound => Unsolved::Missing,
        _ => Unsolved::Failed,
    })?;
    match ended(&mut child, Instant::now() + PATIENCE) {
        Some(true) => read(&found)
            .and_then(|text| solution(&text, columns))
            .ok_or(Unsolved::Failed),
        _ => Err(Unsolved::Failed),
    }
}

/// The text of a file, if it is one, up to as much as a solution can have.
fn read(file: &Path) -> Option<String> {
    let mut text = String::new();
    let read = File::open(file).ok()?.take(MOST).read_to_string(&mut text);
    read.ok().map(|_| text)
}

/// A folder that nobody else looks into, and that is gone afterwards.
struct Folder(PathBuf);

static MADE: AtomicUsize = AtomicUsize::new(0);

impl Folder {
    fn new() -> io::Result<Folder> {
        let names = iter::repeat_with(|| {
            let number = MADE.fetch_add(1, Ordering::Relaxed);
            env::temp_dir().join(format!("desk-{}-{number}", process::id()))
        });
        let mut made = DirBuilder::new();
        made.mode(0o700);
        for path in names.take(1_000) {
            match made.create(&path) {
                Ok(()) => return Ok(Folder(path)),
                // left there by another: the next name
                Err(error) if error.kind() == io::ErrorKind::AlreadyExists => {}
                Err(error) => return Err(error),
            }
        }
        Err(io::ErrorKind::AlreadyExists.into())
    }
}

impl Drop for Folder {
    fn drop(&mut self) {
        // where it cannot be taken away it stays, which changes no answer
        let _ = fs::remove_dir_all(&self.0);
    }
}
