//! Both checkers, byte for byte.

use super::header::{HEADER, number_in};
use super::{cases, seeds, seeds_or};
use skovarnek_compare::proved::{LentBuffer, LentLog, check_lent};
use skovarnek_compare::report::report_bound;
use skovarnek_compare::{check, generate, proved, text};
use std::{ptr, thread};

/// Fills the lent buffer before a call, so that each byte written shows.
const DIRT: u8 = 0xA5;

/// Every buffer length is tried that is so near to the report's: an office's line
/// and one byte more.
const AROUND: usize = "office 31 255 255 32\n".len() + 1;

fn assert_same(name: &str, log: &[u8]) {
    let (ours, theirs) = (check(log), proved::check(log));
    if ours != theirs {
        panic!("{name}\n{}", difference(log, &ours, &theirs));
    }
}

/// The first line that differs, with the log's text up to that step.
fn difference(log: &[u8], ours: &[u8], theirs: &[u8]) -> String {
    let lines = |report: &[u8]| -> Vec<String> {
        let report = String::from_utf8_lossy(report);
        report.lines().map(str::to_string).collect()
    };
    let (ours, theirs) = (lines(ours), lines(theirs));
    let same = ours.iter().zip(&theirs).take_while(|(a, b)| a == b).count();
    let (text, fault) = text::text_so_far(log);
    // The opening has three lines, and the differing step one.
    let text: Vec<&str> = text.lines().take(3 + same + 1).collect();
    format!(
        "here {:?}\nproved {:?}\nfault {fault:?}\n{}",
        ours.get(same),
        theirs.get(same),
        text.join("\n")
    )
}

/// A call with a buffer of this length: what it has to leave there.
fn assert_buffer(name: &str, log: &[u8], report: &[u8], length: usize) {
    let mut buffer = vec![DIRT; length];
    let written = proved::check_into(log, &mut buffer);
    assert_left(name, report, &buffer, written);
}

/// What a call has left in the buffer, which was dirty, and what it has given.
fn assert_left(name: &str, report: &[u8], buffer: &[u8], written: usize) {
    let length = buffer.len();
    if report.len() <= length {
        assert_eq!(written, report.len(), "{name}, buffer of {length}");
        assert_eq!(&buffer[..written], report, "{name}, buffer of {length}");
        let untouched = buffer[written..].iter().all(|&byte| byte == DIRT);
        assert!(untouched, "{name}, buffer of {length}: later bytes touched");
    } else {
        assert_eq!(written, 0, "{name}, buffer of {length}");
        let zero = buffer.iter().all(|&byte| byte == 0);
        assert!(zero, "{name}, buffer of {length}: not all zero");
    }
}

/// Every length around the report's, and all shorter ones if they are few.
fn assert_buffers(name: &str, log: &[u8]) {
    let report = check(log);
    let least = report.len().saturating_sub(AROUND);
    let shorter = match report.len() {
        0..200 => (0..least).collect(),
        _ => vec![0, 1, 2, 3, 7, report.len() / 3, report.len() / 2],
    };
    for length in shorter.into_iter().chain(least..=report.len() + AROUND) {
        assert_buffer(name, log, &report, length);
    }
    assert_buffer(name, log, &report, report.len() + 4096);
}

#[test]
fn the_cases() {
    for case in cases::all() {
        let report = String::from_utf8_lossy(&proved::check(&case.log)).into_owned();
        assert_eq!(report, case.report, "{}", case.name);
        assert_same(&case.name, &case.log);
    }
}

#[test]
fn the_generated_logs() {
    for seed in seeds() {
        assert_same(&format!("seed {seed}"), &generate::log(seed));
    }
}

#[test]
fn every_cut_of_generated_logs() {
    for seed in seeds().take(60) {
        let log = generate::log(seed);
        for length in 0..log.len().min(150) {
            assert_same(&format!("seed {seed} cut to {length}"), &log[..length]);
        }
    }
}

#[test]
fn buffers_for_the_cases() {
    for case in cases::all() {
        if case.report.len() < 20_000 {
            assert_buffers(&case.name, &case.log);
        }
    }
}

/// Logs of any size, in all of which every length around the report's is tried:
/// as many logs as are asked for, up to 20,000, or else 200. Each call checks the
/// whole log again, so that the seeds are shared out among the cores.
#[test]
fn buffers_for_generated_logs() {
    let threads = thread::available_parallelism().map_or(1, usize::from);
    thread::scope(|scope| {
        for first in 0..threads {
            let seeds = seeds_or(200).take(20_000).skip(first).step_by(threads);
            scope.spawn(move || {
                for seed in seeds {
                    assert_buffers(&format!("seed {seed}"), &generate::log(seed));
                }
            });
        }
    });
}

/// The longest report, in a buffer that fits exactly and in one too short.
#[test]
fn buffers_for_a_long_report() {
    let longest = cases::all()
        .into_iter()
        .max_by_key(|case| case.report.len());
    let Some(case) = longest else {
        return;
    };
    let length = case.report.len();
    for length in [length - 1, length, length + 1] {
        assert_buffer(&case.name, &case.log, case.report.as_bytes(), length);
    }
}

/// The logs to measure with, each in a buffer of the header's bound, on a thread
/// with no more stack than the header says that the call needs. The thread's own
/// frames take some of it, and a guard page stands behind it.
#[test]
fn long_logs_on_a_small_stack() {
    let stack = 1000 * number_in(HEADER, "The call needs less than ");
    for row in generate::rows() {
        let mut buffer = vec![DIRT; report_bound(row.log.len())];
        let written = thread::scope(|scope| {
            let small = thread::Builder::new().stack_size(stack);
            let thread = small.spawn_scoped(scope, || proved::check_into(&row.log, &mut buffer));
            thread.expect("a thread").join().expect("a length")
        });
        assert_left(row.name, &check(&row.log), &buffer, written);
    }
}

/// The report on a log of no bytes.
const EMPTY: &[u8] = b"empty\n";

/// Buffers too short for that report, just as long, and longer.
const ROOMS: std::ops::RangeInclusive<usize> = 0..=8;

/// Pointers that aren't good for a single byte.
pub fn pointers_to_nothing() -> Vec<(&'static str, *mut u8)> {
    let mut bytes = vec![DIRT; 8];
    let freed = bytes.as_mut_ptr();
    drop(bytes);
    vec![
        ("null", ptr::null_mut()),
        ("dangling", ptr::dangling_mut()),
        ("misaligned", ptr::without_provenance_mut(4099)),
        ("the last address", ptr::without_provenance_mut(usize::MAX)),
        ("freed", freed),
    ]
}

/// A call for a log of no bytes with a buffer of this length. The bytes around
/// the buffer are not lent.
fn assert_empty(name: &str, log: *const u8, length: usize) {
    let mut memory = vec![DIRT; 8 + length + 8];
    let lent = LentBuffer::Bytes(&mut memory[8..8 + length]);
    let written = check_lent(LentLog::NoBytes(log), lent);
    let (before, rest) = memory.split_at(8);
    let (buffer, behind) = rest.split_at(length);
    assert_left(name, EMPTY, buffer, written);
    assert_eq!([before, behind], [&[DIRT; 8]; 2], "{name}");
}

#[test]
fn a_log_of_no_bytes_anywhere() {
    for (name, pointer) in pointers_to_nothing() {
        for length in ROOMS {
            assert_empty(&format!("a log of no bytes, {name}"), pointer, length);
        }
    }
}

/// No bytes share no byte with the buffer, wherever they are.
#[test]
fn a_log_of_no_bytes_in_the_buffer() {
    for length in ROOMS {
        for place in 0..=length {
            let mut buffer = vec![DIRT; length];
            let log = LentLog::NoBytes(buffer[place..].as_ptr());
            let written = check_lent(log, LentBuffer::Bytes(&mut buffer));
            let name = format!("a log of no bytes at byte {place}");
            assert_left(&name, EMPTY, &buffer, written);
        }
    }
}

/// No report fits.
#[test]
fn a_buffer_of_no_bytes_anywhere() {
    let whole = cases::all().swap_remove(0).log;
    for log in [&whole[..], &[0], &[]] {
        let before = log.to_vec();
        let mut pointers = pointers_to_nothing();
        pointers.push(("in the log", log.as_ptr().cast_mut()));
        for (name, pointer) in pointers {
            let written = check_lent(LentLog::Bytes(log), LentBuffer::NoBytes(pointer));
            assert_eq!(written, 0, "a buffer of no bytes, {name}");
            assert_eq!(log, before, "a buffer of no bytes, {name}");
        }
    }
}

#[test]
fn no_bytes_at_all_anywhere() {
    for (log_name, log) in pointers_to_nothing() {
        for (buffer_name, buffer) in pointers_to_nothing() {
            let written = check_lent(LentLog::NoBytes(log), LentBuffer::NoBytes(buffer));
            assert_eq!(written, 0, "log {log_name}, buffer {buffer_name}");
        }
    }
}
