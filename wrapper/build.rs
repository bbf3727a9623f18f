//! Links the archive of the proved functions, libboundary.a, from the folder that VEILBUZZ_ARCHIVE names, or from target/archive.

use std::env;
use std::path::Path;
use std::process::exit;

fn main() {
    println!("cargo::rerun-if-env-changed=VEILBUZZ_ARCHIVE");
    let default = concat!(env!("CARGO_MANIFEST_DIR"), "/../target/archive");
    let folder = env::var("VEILBUZZ_ARCHIVE").unwrap_or_else(|_| default.into());
    let archive = Path::new(&folder).join("libboundary.a");
    let Ok(archive) = archive.canonicalize() else {
        eprintln!("there is no {}", archive.display());
        eprintln!("tests/archive makes it and prints its folder: set VEILBUZZ_ARCHIVE to that");
        exit(1);
    };
    // the link runs in another folder than this script: so the path from the root
    let folder = archive.parent().expect("a file has a folder");
    println!("cargo::rerun-if-changed={}", archive.display());
    println!("cargo::rustc-link-search=native={}", folder.display());
    println!("cargo::rustc-link-lib=static=boundary");
}
