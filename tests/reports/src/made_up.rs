//! A made-up repository with the scripts ./report and ./desk, to try them where nothing is proved: its rt says what the real one says,
//! and keeps count.

use crate::program::{file, PROGRAM};
use std::env;
use std::fs::{self, create_dir_all, Permissions};
use std::io::Read;
use std::os::unix::fs::{symlink, PermissionsExt};
use std::path::{Path, PathBuf};
use std::process::{self, Child, Command, Output, Stdio};
use std::thread::sleep;
use std::time::{Duration, Instant};

/// What the scripts need beside rt and cargo.
const TOOLS: [&str; 23] = [
    "awk",
    "cat",
    "chmod",
    "cmp",
    "cp",
    "dirname",
    "find",
    "flock",
    "grep",
    "ln",
    "mkdir",
    "mktemp",
    "mv",
    "readlink",
    "rm",
    "sed",
    "sh",
    "sha256sum",
    "sleep",
    "sort",
    "touch",
    "uname",
    "wc",
];

/// The scripts, and what they run, as it is.
const SCRIPTS: [&str; 9] = [
    "desk",
    "report",
    "tests/archive",
    "tests/asking.sh",
    "tests/desk",
    "tests/ended",
    "tests/native/static",
    "tests/program",
    "tests/proving.sh",
];

/// Three crates that the program stands on, four that the functions for C do.
const CRATES: &str =
    "# from the ground floor up\nlists:\nreport: lists\nveilbuzz: report\nother: lists\nboundary: lists other\n\
    boundary_c staticlib: lists other boundary\n";

/// What stands for rt, which is run in a crate's folder and says nothing of a library that has not changed, as here `lists`. It fails where there
/// is a file `broken`, and goes on only once there is no file `held`, or after ten seconds.
const RT: &str = r#"#!/bin/sh
kit=$(dirname "$0")/..
[ "$*" != version ] || exec cat "$kit/version"
crate=${PWD##*/}
echo "rt $* $crate" >>"$kit/../calls"
tries=0
while [ -e ../../held ] && [ "$tries" -lt 500 ]; do
    tries=$((tries + 1))
    sleep 0.02
done
proved() {
    printf '%s\n' "fn $1::first: proved" 'statements std: modules loaded=21 checked=0' 'library lists: modules loaded=2 checked=0'
    printf '%s\n' "crate $1: modules loaded=24 checked=40" 'axioms std: none reached of the 2 declared' 'logic=proved functions=1 sum=0'
}
below() {
    [ ! -e ../../broken ] || {
        printf '%s\n' "fn $1::first: not proved" "crate $1: modules loaded=24 checked=40" 'logic=not-proved'
        echo "rt: the library $1 did not build, so nothing above it was checked"
        exit 1
    }
    proved "$1"
}
case "$* $crate" in
'run veilbuzz')
    below report >&2
    proved veilbuzz >&2
    mkdir -p out && cp "$kit/veilbuzz" out/veilbuzz
    echo 'rt: running out/veilbuzz; to give it other input, run that file yourself' >&2
    exec out/veilbuzz
    ;;
'lib boundary_c')
    below other
    proved boundary
    proved boundary_c
    mkdir -p out && echo archive >out/libboundary_c.a
    echo out/libboundary_c.a
    ;;
*)
    echo 'rt: this crate is a program: use rt run' >&2
    exit 2
    ;;
esac
"#;

/// What a script says that waits until another has proved.
pub const WAITING: &str = "waiting for another run, which is proving or building here";

/// The tools that may be missing, and the folder of each.
const MISSABLE: [(&str, &str); 2] = [("rt", "kit/bin"), ("cargo", "rust/bin")];

pub struct Repository {
    root: PathBuf,
    script: &'static str,
}

impl Repository {
    /// One that is not built yet, to try one of the scripts. It has links and sources, for which rt allows no place in a repository of its own: so
    /// it is in a folder among the temporary files, and is removed with it.
    pub fn new(name: &str, script: &'static str) -> Self {
        let folder = env::temp_dir().join(format!("veilbuzz-{script}-{name}-{}", process::id()));
        let _ = fs::remove_dir_all(&folder);
        create_dir_all(&folder).expect("a folder can be made");
        // as the scripts tell it
        let root = folder.canonicalize().expect("the folder is there");
        let made = Repository { root, script };
        for script in SCRIPTS {
            create_dir_all(made.path(script).parent().expect("a file is in a folder")).expect("a folder can be made");
            fs::copy(file(script), made.path(script)).expect("the script can be copied");
        }
        made.write("crates.txt", CRATES);
        for source in [
            "lists/src/lib.rt",
            "report/src/lib.rt",
            "veilbuzz/src/main.rt",
            "other/src/lib.rt",
            "boundary/src/lib.rt",
            "boundary_c/src/lib.rt",
        ] {
            made.write(&format!("crates/{source}"), source);
        }
        made.link_tools();
        made.write("kit/version", "a kit\n");
        made.write_script("kit/bin/rt", RT);
        made
    }

    /// With the built program, which rt then hands out.
    pub fn with_program(self) -> Self {
        symlink(file(PROGRAM), self.path("kit/veilbuzz")).expect("a link can be made");
        self
    }

    pub fn root(&self) -> &Path {
        &self.root
    }

    pub fn path(&self, name: &str) -> PathBuf {
        self.root.join(name)
    }

    pub fn write(&self, name: &str, text: &str) {
        let path = self.path(name);
        create_dir_all(path.parent().expect("a file is in a folder")).expect("a folder can be made");
        fs::write(path, text).expect("a file can be written");
    }

    /// Writes a file that can be run.
    pub fn write_script(&self, name: &str, text: &str) {
        self.write(name, text);
        fs::set_permissions(self.path(name), Permissions::from_mode(0o755)).expect("a file can be made to run");
    }

    pub fn remove(&self, name: &str) {
        fs::remove_file(self.path(name)).expect("the file is there");
    }

    /// How often a tool was asked to prove or to build, by the first words of the call.
    pub fn calls(&self, words: &str) -> usize {
        let calls = fs::read_to_string(self.path("calls")).unwrap_or_default();
        calls
            .lines()
            .filter(|call| {
                call.strip_prefix(words)
                    .is_some_and(|rest| rest.is_empty() || rest.starts_with(' '))
            })
            .count()
    }

    /// The script's command, from that folder, with all tools.
    pub fn command(&self) -> Command {
        self.command_without(&[])
    }

    /// The same without rt, cargo or both.
    pub fn command_without(&self, missing: &[&str]) -> Command {
        self.run(self.path(self.script), missing)
    }

    /// A shell with all tools, on one line, in which $0 is the script.
    pub fn shell(&self, line: &str) -> Command {
        let mut shell = self.run("sh".into(), &[]);
        shell.arg("-c").arg(line).arg(self.path(self.script));
        shell
    }

    /// What the script leaves for one word.
    pub fn ask(&self, word: &str) -> Output {
        output(self.command().arg(word))
    }

    /// A run of the script for one word that is proving, and goes on once the file `held` is removed.
    pub fn held(&self, word: &str) -> Child {
        self.write("held", "");
        let child = start(self.command().arg(word));
        let last = Instant::now() + Duration::from_secs(10);
        while self.calls("rt") == 0 && Instant::now() < last {
            sleep(Duration::from_millis(5));
        }
        child
    }

    fn run(&self, program: PathBuf, missing: &[&str]) -> Command {
        let there = MISSABLE.iter().filter(|(tool, _)| !missing.contains(tool));
        let folders = there.map(|(_, folder)| self.path(folder)).chain([self.path("tools")]);
        let mut command = Command::new(program);
        command
            .current_dir(&self.root)
            .env("PATH", env::join_paths(folders).expect("no folder has a colon"));
        command
    }

    fn link_tools(&self) {
        create_dir_all(self.path("tools")).expect("a folder can be made");
        let path = env::var_os("PATH").expect("there is a PATH");
        for tool in TOOLS {
            let found = env::split_paths(&path)
                .map(|folder| folder.join(tool))
                .find(|tool| tool.exists());
            let found = found.unwrap_or_else(|| panic!("there is no {tool} on PATH"));
            symlink(found, self.path("tools").join(tool)).expect("a link can be made");
        }
    }
}

impl Drop for Repository {
    fn drop(&mut self) {
        let _ = fs::remove_dir_all(&self.root);
    }
}

/// What a command leaves that gets no input.
pub fn output(command: &mut Command) -> Output {
    command.stdin(Stdio::null()).output().expect("the script runs")
}

/// A command that gets no input, started, with what it leaves piped.
pub fn start(command: &mut Command) -> Child {
    command
        .stdin(Stdio::null())
        .stdout(Stdio::piped())
        .stderr(Stdio::piped())
        .spawn()
        .expect("the script runs")
}

/// The first line that a started command says on standard error; the rest is left there.
pub fn first_line(child: &mut Child) -> String {
    let error = child.stderr.as_mut().expect("standard error is piped");
    let (mut line, mut byte) = (vec![], [0]);
    while error.read(&mut byte).expect("standard error can be read") == 1 && byte != *b"\n" {
        line.push(byte[0]);
    }
    String::from_utf8(line).expect("words in UTF-8")
}

/// What a script has said on standard error.
pub fn said(output: &Output) -> &str {
    std::str::from_utf8(&output.stderr).expect("words in UTF-8")
}
