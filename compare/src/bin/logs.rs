//! Writes generated logs into a folder, one file for each seed.

use std::{env, fs, path::Path, process::ExitCode};

use skovarnek_compare::generate;

const USAGE: &str = "usage: logs FOLDER COUNT";

fn write_logs(folder: &Path, count: u64) -> std::io::Result<()> {
    fs::create_dir_all(folder)?;
    for seed in 0..count {
        fs::write(folder.join(format!("{seed}.log")), generate::log(seed))?;
    }
    Ok(())
}

fn main() -> ExitCode {
    let words: Vec<String> = env::args().skip(1).collect();
    let [folder, count] = words.as_slice() else {
        eprintln!("{USAGE}");
        return ExitCode::FAILURE;
    };
    let Ok(count) = count.parse() else {
        eprintln!("{USAGE}");
        return ExitCode::FAILURE;
    };
    match write_logs(Path::new(folder), count) {
        Ok(()) => ExitCode::SUCCESS,
        Err(error) => {
            eprintln!("{folder}: {error}");
            ExitCode::FAILURE
        }
    }
}
