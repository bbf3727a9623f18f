//! Each example with a chart that is refused: it says so in words on standard error, and ends with status 1.

use std::fs::{copy, create_dir_all, read_dir, read_to_string, remove_dir_all, write};
use std::path::{Path, PathBuf};
use std::process::Command;
use veilbuzz::Refusal;

const WRAPPER: &str = env!("CARGO_MANIFEST_DIR");

/// Each example, what stands in it once, what is put in its place, and the number and place of the refusal that follows.
const SPOILT: [(&str, &str, &str, usize, usize); 5] = [
    ("bound", "branch.chart", "refused-cut-short.chart", 8, 0),
    ("deadline", "winch-swapped.chart", "refused-cut-short.chart", 8, 0),
    ("loop", "0x01, 0x40, 0x24", "0x02, 0x40, 0x24", 2, 0),
    ("make", "ways: 2,", "ways: 9,", 3, 0),
    ("short", "loop.chart", "refused-two-arrows-to-one-node.chart", 9, 1),
];

/// A package of its own with the spoilt examples as its programs.
fn package() -> PathBuf {
    let folder = Path::new(env!("CARGO_TARGET_TMPDIR")).join("spoilt");
    let _ = remove_dir_all(&folder);
    create_dir_all(folder.join("src/bin")).expect("a folder can be made");
    create_dir_all(folder.join("charts")).expect("a folder can be made");
    for chart in read_dir(Path::new(WRAPPER).join("../charts")).expect("the folder can be listed") {
        let chart = chart.expect("the folder can be listed");
        copy(chart.path(), folder.join("charts").join(chart.file_name())).expect("a file can be copied");
    }
    let manifest = format!(
        "[package]\nname = \"spoilt\"\nedition = \"2021\"\n[dependencies]\nveilbuzz = {{ path = {WRAPPER:?} }}\n[workspace]\n"
    );
    write(folder.join("Cargo.toml"), manifest).expect("a file can be written");
    for (example, right, wrong, ..) in SPOILT {
        let name = format!("{example}.rs");
        let source = read_to_string(Path::new(WRAPPER).join("examples").join(&name)).expect("it is there");
        assert_eq!(source.matches(right).count(), 1, "{example} has '{right}' once");
        write(folder.join("src/bin").join(&name), source.replace(right, wrong)).expect("a file can be written");
    }
    folder
}

#[test]
fn each_example_tells_a_refusal_in_words() {
    let package = package();
    for (example, _, _, number, place) in SPOILT {
        let mut cargo = Command::new(env!("CARGO"));
        cargo.args([
            "run",
            "--quiet",
            "--offline",
            "--target-dir",
            "target",
            "--bin",
            example,
        ]);
        let output = cargo.current_dir(&package).output().expect("cargo starts");
        let said = String::from_utf8_lossy(&output.stderr);
        assert_eq!(said, format!("{}\n", Refusal { number, place }), "{example}");
        assert_eq!(output.status.code(), Some(1), "{example}");
    }
}

#[test]
fn no_example_is_left_out() {
    let folder = read_dir(Path::new(WRAPPER).join("examples")).expect("the folder can be listed");
    let names = folder.map(|entry| entry.expect("the folder can be listed").file_name());
    let mut there: Vec<String> = names
        .filter_map(|name| Some(name.to_str()?.strip_suffix(".rs")?.into()))
        .collect();
    there.sort();
    assert_eq!(there, SPOILT.map(|(example, ..)| example));
}
