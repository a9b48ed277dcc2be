//! Writes the proved checker's reports on generated logs, each after its seed.
//! What two builds of it write can be compared byte for byte.

use std::io::{self, BufWriter, Write};
use std::{env, process::ExitCode};

use skovarnek_compare::{generate, proved};

const USAGE: &str = "usage: reports FIRST COUNT";

fn write_reports(first: u64, count: usize) -> io::Result<()> {
    let mut out = BufWriter::new(io::stdout().lock());
    for seed in (first..).take(count) {
        writeln!(out, "seed {seed}")?;
        out.write_all(&proved::check(&generate::log(seed)))?;
    }
    out.flush()
}

fn main() -> ExitCode {
    let words: Vec<String> = env::args().skip(1).collect();
    let [first, count] = words.as_slice() else {
        eprintln!("{USAGE}");
        return ExitCode::FAILURE;
    };
    let (Ok(first), Ok(count)) = (first.parse(), count.parse()) else {
        eprintln!("{USAGE}");
        return ExitCode::FAILURE;
    };
    match write_reports(first, count) {
        Ok(()) => ExitCode::SUCCESS,
        Err(error) => {
            eprintln!("standard output: {error}");
            ExitCode::FAILURE
        }
    }
}
