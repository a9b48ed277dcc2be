//! The stack that the program needs.

use super::{assert_says, by_shell, ended, program, samples};
use skovarnek_compare::check;
use skovarnek_compare::generate::rows;
use std::path::{Path, PathBuf};
use std::process::Output;
use std::{env, fs};

/// So many kilobytes are enough, as the README says.
const ENOUGH: usize = 2560;

/// Fewer than the two buffers have.
const TOO_FEW: usize = 2048;

/// The program's call with a stack of so many kilobytes. The environment would
/// take a part of it.
fn with_stack(kilobytes: usize, path: &Path) -> Output {
    let mut call = by_shell(&format!("ulimit -s {kilobytes} && exec \"$0\" \"$@\""));
    call.arg(path).env_clear();
    if let Some(folders) = env::var_os("PATH") {
        call.env("PATH", folders);
    }
    ended(call)
}

/// The rows, each written to a file.
fn written_rows() -> Vec<(PathBuf, Vec<u8>)> {
    let folder = Path::new(env!("CARGO_TARGET_TMPDIR"));
    let written = |(place, log): (usize, Vec<u8>)| {
        let path = folder.join(format!("row-{place}.log"));
        fs::write(&path, &log).expect("a file");
        (path, log)
    };
    let logs = rows().into_iter().map(|row| row.log);
    logs.enumerate().map(written).collect()
}

#[test]
fn enough() {
    for (path, log) in samples().into_iter().chain(written_rows()) {
        let output = with_stack(ENOUGH, &path);
        assert_says(&output, "");
        assert!(output.stdout == check(&log), "{}", path.display());
    }
}

/// The limit is heeded: with too few the system ends the program.
#[test]
fn too_few() {
    for (path, _) in samples() {
        let output = with_stack(TOO_FEW, &path);
        assert!(!output.status.success());
        assert_eq!(output.stdout, b"");
    }
    assert!(ended(program()).status.success());
}
