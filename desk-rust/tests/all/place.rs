//! A folder where `./desk` and what its examples read are as they are in the repository, and where files can be written.

use crate::running::{said, Said, DESK};
use reports::program::file;
use std::env;
use std::fs::{create_dir_all, remove_dir_all};
use std::os::unix::fs::symlink;
use std::path::PathBuf;
use std::process::{self, Command};

pub struct Place(PathBuf);

/// What is linked there.
const LINKED: [&str; 3] = ["charts", "docs", "desk-rust"];

impl Place {
    /// An empty one. It has links, which rt allows nowhere in the repository: so it is among the temporary files, and is removed with it.
    pub fn new(name: &str) -> Place {
        let folder = env::temp_dir().join(format!("veilbuzz-places-{name}-{}", process::id()));
        let _ = remove_dir_all(&folder);
        create_dir_all(&folder).expect("a folder can be made");
        let link = |to: PathBuf, name: &str| symlink(to, folder.join(name)).expect("a link can be made");
        link(DESK.into(), "desk");
        for name in LINKED {
            link(file(name).canonicalize().expect("it is there"), name);
        }
        Place(folder)
    }

    pub fn path(&self, name: &str) -> PathBuf {
        self.0.join(name)
    }

    /// What a line of shell leaves.
    pub fn run(&self, line: &str) -> Said {
        let mut shell = Command::new("sh");
        shell.arg("-c").arg(line).current_dir(&self.0);
        said(shell, b"")
    }
}

impl Drop for Place {
    fn drop(&mut self) {
        let _ = remove_dir_all(&self.0);
    }
}
