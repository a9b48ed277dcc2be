//! The reports of the proved checker, as they are written for a comparison of
//! two builds of it.

use skovarnek_compare::{check, generate};
use std::process::{Command, Output};

fn reports(arguments: &[&str]) -> Output {
    let mut program = Command::new(env!("CARGO_BIN_EXE_reports"));
    program.args(arguments).output().expect("the program ends")
}

#[test]
fn each_report_after_its_seed() {
    let written = reports(&["70", "90"]);
    assert!(written.status.success());
    let mut wanted = Vec::new();
    for seed in 70..160 {
        wanted.extend_from_slice(format!("seed {seed}\n").as_bytes());
        wanted.extend(check(&generate::log(seed)));
    }
    assert!(written.stdout == wanted, "other reports");
}

#[test]
fn other_arguments_are_refused() {
    for arguments in [&[][..], &["1"], &["1", "x"], &["-1", "2"], &["1", "2", "3"]] {
        let refused = reports(arguments);
        assert!(!refused.status.success(), "{arguments:?}");
        assert!(refused.stdout.is_empty(), "{arguments:?}");
    }
}
