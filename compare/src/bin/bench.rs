//! The proved checker's time beside that of this package, on long logs, and the
//! time of long slips: `bench [N]` takes the best of N runs of each, turn and turn
//! about.

use skovarnek_compare::generate::{Row, rows};
use skovarnek_compare::{proved, report};
use std::env;
use std::process::ExitCode;
use std::time::{Duration, Instant};

const DEFAULT_RUNS: usize = 20;

fn main() -> ExitCode {
    let runs = match env::args().nth(1).map(|runs| runs.parse()) {
        None => DEFAULT_RUNS,
        Some(Ok(runs)) if runs > 0 => runs,
        Some(_) => {
            eprintln!("usage: bench [N]    best of N runs, {DEFAULT_RUNS} if not given");
            return ExitCode::FAILURE;
        }
    };
    println!("best of {runs}; times in milliseconds");
    println!(
        "{:<26} {:>6} {:>7} {:>6} {:>10} {:>10} {:>7}",
        "log", "bytes", "steps", "such", "C call", "Rust", "ratio"
    );
    for row in rows() {
        if let Err(message) = measure(&row, runs) {
            eprintln!("{}: {message}", row.name);
            return ExitCode::FAILURE;
        }
    }
    match slips(runs) {
        Ok(()) => ExitCode::SUCCESS,
        Err(message) => {
            eprintln!("{message}");
            ExitCode::FAILURE
        }
    }
}

/// One row: the log is what its name says, both reports are equal, and then the
/// times are taken.
fn measure(row: &Row, runs: usize) -> Result<(), String> {
    let count = row
        .count()
        .map_err(|refusal| format!("the log is refused: {refusal:?}"))?;
    if !row.holds() {
        return Err(format!("not what it says: {count:?}"));
    }
    let mut report = Vec::new();
    report::check_onto(&row.log, &mut report);
    if proved::check(&row.log) != report {
        return Err("the reports differ".to_string());
    }
    let mut buffer = vec![0; report::report_bound(row.log.len())];
    let (mut best_call, mut best_rust) = (Duration::MAX, Duration::MAX);
    for _ in 0..runs {
        best_call = best_call.min(time(|| {
            proved::check_into(&row.log, &mut buffer);
        }));
        best_rust = best_rust.min(time(|| {
            report.clear();
            report::check_onto(&row.log, &mut report);
        }));
    }
    print_row(row, count, best_call, best_rust);
    Ok(())
}

fn time(run: impl FnOnce()) -> Duration {
    let start = Instant::now();
    run();
    start.elapsed()
}

/// `such` is the percentage of steps that are as the row says.
fn print_row(row: &Row, (steps, fitting): (usize, usize), call: Duration, rust: Duration) {
    let milliseconds = |time: Duration| time.as_secs_f64() * 1000.0;
    println!(
        "{:<26} {:>6} {:>7} {:>5}% {:>10.3} {:>10.3} {:>7.2}",
        row.name,
        row.log.len(),
        steps,
        100 * fitting / steps,
        milliseconds(call),
        milliseconds(rust),
        call.as_secs_f64() / rust.as_secs_f64()
    );
}

#[cfg(not(slip_timing))]
fn slips(_: usize) -> Result<(), String> {
    println!("\nLEFT OUT: slips; they need libslip_timing.a in the folder of SKOVARNEK_LIB_DIR");
    Ok(())
}

/// A table of its own, for slips.
#[cfg(slip_timing)]
fn slips(runs: usize) -> Result<(), String> {
    slip_table::print(runs)
}

#[cfg(slip_timing)]
mod slip_table {
    use super::time;
    use skovarnek_compare::generate::{SlipRow, slip_rows};
    use skovarnek_compare::packed::read_log;
    use skovarnek_compare::proved::slip::timing;
    use skovarnek_compare::register::Register;
    use skovarnek_compare::report::run_with;
    use skovarnek_compare::slip;
    use std::hint::black_box;
    use std::time::Duration;

    /// A slip is checked or written so many times in a run.
    const TIMES: u32 = 1000;

    pub fn print(runs: usize) -> Result<(), String> {
        println!("\nbest of {runs} times {TIMES}; times of one slip in microseconds");
        println!(
            "{:<34} {:>6} {:>7} {:>10} {:>10} {:>7}",
            "slip", "bytes", "blocks", "C call", "Rust", "ratio"
        );
        for row in slip_rows() {
            let log = read_log(&row.log).map_err(|refusal| format!("{refusal:?}"))?;
            let register = run_with(&log, None).1;
            check(&row, &register, runs)?;
            write(&row, &register, runs)?;
        }
        Ok(())
    }

    /// Both answers are equal, and then the times are taken.
    fn check(row: &SlipRow, register: &Register, runs: usize) -> Result<(), String> {
        let answer = slip::check(register, &row.slip).map(|block| (0, block.index()));
        if answer != Ok(timing::check(&row.log, &row.slip, 1)) {
            return Err(format!("{}: the answers differ", row.name));
        }
        let proved = |times| {
            timing::check(&row.log, &row.slip, times);
        };
        let rust = || {
            let _ = black_box(slip::check(register, black_box(&row.slip)));
        };
        measure("check", row, register, runs, (proved, rust));
        Ok(())
    }

    /// The same, and both have written the same bytes.
    fn write(row: &SlipRow, register: &Register, runs: usize) -> Result<(), String> {
        let (office, block) = (row.office, row.block);
        let [mut ours, mut theirs] = [vec![0; row.slip.len()], vec![0; row.slip.len()]];
        let answer = slip::write_into(register, office, block, &mut ours).map(|length| (0, length));
        let given = timing::write_into(&row.log, office.0, block.0, &mut theirs, 1);
        if answer != Ok(given) || [&ours, &theirs] != [&row.slip; 2] {
            return Err(format!("{}: the slips differ", row.name));
        }
        let proved = |times| {
            timing::write_into(&row.log, office.0, block.0, &mut theirs, times);
        };
        let rust = || {
            let _ = black_box(slip::write_into(
                register,
                office,
                block,
                black_box(&mut ours),
            ));
        };
        measure("write", row, register, runs, (proved, rust));
        Ok(())
    }

    /// The C call takes the log's steps first. What that takes is taken off.
    fn measure(
        what: &str,
        row: &SlipRow,
        register: &Register,
        runs: usize,
        (mut proved, mut rust): (impl FnMut(u32), impl FnMut()),
    ) {
        let [mut steps_alone, mut best_call, mut best_rust] = [Duration::MAX; 3];
        for _ in 0..runs {
            steps_alone = steps_alone.min(time(|| proved(0)));
            best_call = best_call.min(time(|| proved(TIMES)));
            best_rust = best_rust.min(time(|| (0..TIMES).for_each(|_| rust())));
        }
        let call = best_call.saturating_sub(steps_alone);
        let microseconds = |time: Duration| time.as_secs_f64() * 1e6 / f64::from(TIMES);
        println!(
            "{:<34} {:>6} {:>7} {:>10.3} {:>10.3} {:>7.2}",
            format!("slip {what}, {}", row.name),
            row.slip.len(),
            register.chain_length(row.block),
            microseconds(call),
            microseconds(best_rust),
            call.as_secs_f64() / best_rust.as_secs_f64()
        );
    }
}
