//! Without the feature `proved` the comparison is left out, and `cargo test` says
//! so.

use std::io::{self, Write};

/// Stands for the tests that are not there; `README.md` says how to run them.
#[test]
#[ignore = "needs --features proved and SKOVARNEK_LIB_DIR"]
fn comparison_with_the_proved_library() {
    panic!("there is no proved library in this build");
}

/// Tests' words are kept back while they pass, but not what is written so. Thus
/// `--quiet` shows it too.
#[test]
fn says_so() {
    let sentence = b"\nLEFT OUT: the comparison with the proved library; it needs \
        --features proved and SKOVARNEK_LIB_DIR, see README.md\n";
    io::stderr().write_all(sentence).expect("standard error");
}
