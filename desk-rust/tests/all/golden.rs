//! Files that have what the desk is to write. DESK_GOLDEN=write writes them anew; what differs is then for a human to read.

use std::env;
use std::fs;
use std::path::{Path, PathBuf};

/// A folder of them.
pub fn folder(name: &str) -> PathBuf {
    Path::new(env!("CARGO_MANIFEST_DIR")).join("tests/golden").join(name)
}

/// The names of the files of a folder that end so, without that end, in order.
pub fn names(folder: &Path, end: &str) -> Vec<String> {
    let files = fs::read_dir(folder).expect("the folder can be listed");
    let mut names: Vec<String> = files
        .map(|file| file.expect("the folder can be listed").file_name())
        .map(|name| name.into_string().expect("a name in UTF-8"))
        .filter_map(|name| name.strip_suffix(end).map(String::from))
        .collect();
    names.sort();
    names
}

/// Where a text differs from what a file has, if it does. The file is written if that is asked for.
pub fn difference(file: &Path, text: &str) -> Option<String> {
    if env::var("DESK_GOLDEN").as_deref() == Ok("write") {
        fs::write(file, text).expect("the file can be written");
        return None;
    }
    let golden = fs::read_to_string(file).unwrap_or_default();
    if golden == text {
        return None;
    }
    let (here, there): (Vec<&str>, Vec<&str>) = (text.split('\n').collect(), golden.split('\n').collect());
    let line = here.iter().zip(&there).take_while(|(one, other)| one == other).count();
    Some(format!(
        "{}:{}: the desk writes {:?}, and the file has {:?}",
        file.display(),
        line + 1,
        here.get(line),
        there.get(line)
    ))
}

/// Holds that there are no differences.
pub fn hold(differences: Vec<String>) {
    assert!(
        differences.is_empty(),
        "if that is meant, run this with DESK_GOLDEN=write and read what has changed:\n{}",
        differences.join("\n")
    );
}
