//! The texts of the repository, by folder.

use crate::program::file;
use std::fs;

/// The text of a file.
pub fn text(name: &str) -> String {
    fs::read_to_string(file(name)).unwrap_or_else(|error| panic!("{name}: {error}"))
}

/// A file, or all files in and under a folder, by name and in order. What is built is left out.
pub fn files(name: &str) -> Vec<String> {
    if !file(name).is_dir() {
        return vec![name.to_string()];
    }
    let mut inside: Vec<String> = fs::read_dir(file(name))
        .unwrap_or_else(|error| panic!("{name}: {error}"))
        .map(|entry| entry.expect("the folder can be listed").file_name())
        .map(|entry| entry.into_string().expect("a name in UTF-8"))
        .filter(|entry| entry != "target" && entry != "out")
        .collect();
    inside.sort();
    inside
        .iter()
        .flat_map(|entry| files(&format!("{name}/{entry}")))
        .collect()
}

/// The texts of a file or of all files in and under a folder, each with its name. What is no text is left out.
pub fn texts(name: &str) -> Vec<(String, String)> {
    files(name)
        .into_iter()
        .filter_map(|name| Some((fs::read_to_string(file(&name)).ok()?, name)))
        .map(|(text, name)| (name, text))
        .collect()
}
