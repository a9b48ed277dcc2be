//! Tells the linker where the proved libraries are, if the feature `proved` wants
//! them.

use std::env;
use std::path::Path;

/// The check of logs, and that of slips.
const ARCHIVES: [&str; 2] = ["skovarnek", "skovarnek_slip"];

/// Slips checked and written many times over. Only the benchmark calls it, and it
/// says so where the archive is not there.
const TIMING: &str = "slip_timing";

fn main() {
    println!("cargo::rerun-if-changed=build.rs");
    println!("cargo::rerun-if-env-changed=SKOVARNEK_LIB_DIR");
    println!("cargo::rustc-check-cfg=cfg({TIMING})");
    if env::var_os("CARGO_FEATURE_PROVED").is_none() {
        return;
    }
    let Ok(folder) = env::var("SKOVARNEK_LIB_DIR") else {
        let names = ARCHIVES.map(file_name).join(" and ");
        println!("cargo::error=feature `proved` needs SKOVARNEK_LIB_DIR, the folder of {names}");
        return;
    };
    println!("cargo::rustc-link-search=native={folder}");
    for name in ARCHIVES {
        if !link(&folder, name) {
            let file = file_name(name);
            println!("cargo::error=no {file} in {folder}, the folder that SKOVARNEK_LIB_DIR names");
        }
    }
    if link(&folder, TIMING) {
        println!("cargo::rustc-cfg={TIMING}");
    }
}

fn file_name(name: &str) -> String {
    format!("lib{name}.a")
}

/// Links an archive and says whether it is there.
fn link(folder: &str, name: &str) -> bool {
    let archive = Path::new(folder).join(file_name(name));
    println!("cargo::rerun-if-changed={}", archive.display());
    let found = archive.is_file();
    if found {
        println!("cargo::rustc-link-lib=static={name}");
    }
    found
}
