//! Links a second archive, libbefore.a, from the folder that VEILBUZZ_BEFORE names, where it names one (`tests/speed/before`).

use std::env;

fn main() {
    println!("cargo::rerun-if-env-changed=VEILBUZZ_BEFORE");
    println!("cargo::rustc-check-cfg=cfg(before)");
    if let Ok(folder) = env::var("VEILBUZZ_BEFORE") {
        println!("cargo::rerun-if-changed={folder}/libbefore.a");
        println!("cargo::rustc-link-search=native={folder}");
        println!("cargo::rustc-link-lib=static=before");
        println!("cargo::rustc-cfg=before");
    }
}
