//! The proved slips beside those of this package, byte for byte.

use super::{Answer, cases, check, register_after, write};
use crate::header::{SLIP_HEADER, number_in};
use crate::proved::pointers_to_nothing;
use crate::seeds_or;
use skovarnek_compare::generate::{slip_calls, slip_rows};
use skovarnek_compare::proved::{LentBuffer, LentLog, slip};
use skovarnek_compare::refusal::Refusal;
use skovarnek_compare::register::Register;
use std::thread;

/// Stands before and behind the lent buffer, where no byte may change.
const GUARD: [u8; 8] = [0x5A; 8];

/// What a proved call gives, as this package has it.
fn answer((refusal, value): (u32, usize)) -> Answer {
    (refusal.try_into().expect("a number of refusal"), value)
}

fn assert_check(name: &str, log: &[u8], bytes: &[u8], wanted: Answer) {
    let given = answer(slip::check(log, bytes));
    assert_eq!(given, wanted, "{name}: slip {bytes:02X?}");
}

/// A call with a buffer of this length and dirt: what it has to give and to leave
/// there.
fn assert_write(
    name: &str,
    log: &[u8],
    register: &Result<Register, Refusal>,
    (office, block): (u8, u8),
    (room, dirt): (usize, u8),
) {
    let mut wanted = vec![dirt; room];
    let due = write(register, office, block, &mut wanted);
    let mut memory = [&GUARD[..], &vec![dirt; room], &GUARD].concat();
    let lent = &mut memory[GUARD.len()..GUARD.len() + room];
    let given = answer(slip::write_into(log, office, block, lent));
    let name = format!("{name}: office {office}, block {block}, {room} bytes of {dirt:02X}");
    assert_eq!(given, due, "{name}");
    assert_eq!(memory, [&GUARD[..], &wanted, &GUARD].concat(), "{name}");
}

#[test]
fn the_cases() {
    for case in cases::checks() {
        assert_check(&case.name, &case.log, &case.slip, case.answer);
    }
    for case in cases::writes() {
        let given = slip::write_into(&case.log, case.office, case.block, &mut vec![0; case.room]);
        assert_eq!(answer(given), case.answer, "{}", case.name);
        let register = register_after(&case.log);
        for dirt in [0, 0xA5, 0xFF] {
            let (call, buffer) = ((case.office, case.block), (case.room, dirt));
            assert_write(&case.name, &case.log, &register, call, buffer);
        }
    }
}

/// Each slip cut to every length, and with every single bit changed.
#[test]
fn changes_of_the_cases() {
    for case in cases::checks()
        .into_iter()
        .filter(|case| case.log.len() < 100)
    {
        let register = register_after(&case.log);
        for length in 0..case.slip.len() {
            let cut = &case.slip[..length];
            assert_check(&case.name, &case.log, cut, check(&register, cut));
        }
        for bit in 0..8 * case.slip.len() {
            let mut slip = case.slip.clone();
            slip[bit / 8] ^= 128 >> (bit % 8);
            assert_check(&case.name, &case.log, &slip, check(&register, &slip));
        }
    }
}

/// Gives how many calls there were.
fn assert_seed(seed: u64) -> usize {
    let calls = slip_calls(seed);
    let register = register_after(&calls.log);
    let name = format!("seed {seed}");
    for bytes in &calls.slips {
        assert_check(&name, &calls.log, bytes, check(&register, bytes));
    }
    for call in &calls.writings {
        let (named, buffer) = ((call.office, call.block), (call.room, call.dirt));
        assert_write(&name, &calls.log, &register, named, buffer);
    }
    calls.slips.len() + calls.writings.len()
}

/// As many logs as are asked for, or else 800, and on each of them up to 12 slips
/// that are checked and up to 6 that are written. Each call takes all steps of the
/// log again, so that the seeds are shared out among the cores.
#[test]
fn the_generated_slips() {
    let threads = thread::available_parallelism().map_or(1, usize::from);
    let calls: usize = thread::scope(|scope| {
        let share = |first: usize| {
            let seeds = seeds_or(800).skip(first).step_by(threads);
            scope.spawn(move || seeds.map(assert_seed).sum::<usize>())
        };
        let shares: Vec<_> = (0..threads).map(share).collect();
        let counts = shares.into_iter().map(|share| share.join().expect("equal"));
        counts.sum()
    });
    println!("calls compared: {calls}");
}

/// The slips to measure with: the longest chains on full tables.
#[test]
fn the_longest_slips() {
    for row in slip_rows() {
        let register = register_after(&row.log);
        let wanted = check(&register, &row.slip);
        assert_check(row.name, &row.log, &row.slip, wanted);
        for room in [0, row.slip.len() - 1, row.slip.len(), row.slip.len() + 9] {
            let call = (row.office.0, row.block.0);
            assert_write(row.name, &row.log, &register, call, (room, 0xA5));
        }
    }
}

/// The same on a thread with no more stack than the header says that a call needs.
#[test]
fn the_longest_slips_on_a_small_stack() {
    let stack = 1000 * number_in(SLIP_HEADER, "A call needs less than ");
    for row in slip_rows() {
        let mut buffer = vec![0xA5; row.slip.len()];
        let calls = || {
            let written = slip::write_into(&row.log, row.office.0, row.block.0, &mut buffer);
            (written, slip::check(&row.log, &row.slip))
        };
        let (written, checked) = thread::scope(|scope| {
            let small = thread::Builder::new().stack_size(stack);
            let thread = small.spawn_scoped(scope, calls).expect("a thread");
            thread.join().expect("answers")
        });
        assert_eq!(
            (written, buffer),
            ((0, row.slip.len()), row.slip.clone()),
            "{}",
            row.name
        );
        assert_eq!(
            answer(checked),
            check(&register_after(&row.log), &row.slip),
            "{}",
            row.name
        );
    }
}

/// No bytes may come with any pointer: as a log, as a slip, as a buffer.
#[test]
fn no_bytes_anywhere() {
    let whole = cases::checks().swap_remove(0);
    let (log, bytes) = (LentLog::Bytes(&whole.log), LentLog::Bytes(&whole.slip));
    for (name, pointer) in pointers_to_nothing() {
        let none = LentLog::NoBytes(pointer);
        assert_eq!(slip::check_lent(none, bytes), (27, 0), "log {name}");
        assert_eq!(slip::check_lent(log, none), (33, 0), "slip {name}");
        assert_eq!(slip::check_lent(none, none), (27, 0), "both {name}");
        let given = slip::write_lent(log, 1, 3, LentBuffer::NoBytes(pointer));
        assert_eq!(given, (31, 0), "buffer {name}");
        let given = slip::write_lent(none, 1, 3, LentBuffer::NoBytes(pointer));
        assert_eq!(given, (27, 0), "log and buffer {name}");
        let mut buffer = [0xA5; 9];
        let given = slip::write_lent(none, 1, 3, LentBuffer::Bytes(&mut buffer));
        assert_eq!((given, buffer), ((27, 0), [0xA5; 9]), "log {name}");
    }
}

/// The calls to measure with give the answers of the others, and leave the same in
/// the buffer. No times at all are answered with 0, on a log that reads.
#[cfg(slip_timing)]
#[test]
fn many_times() {
    use skovarnek_compare::proved::slip::timing;
    for case in cases::checks() {
        for times in [1, 3] {
            let given = timing::check(&case.log, &case.slip, times);
            assert_eq!(answer(given), case.answer, "{}", case.name);
        }
        let reads = register_after(&case.log).is_ok();
        let none = timing::check(&case.log, &case.slip, 0);
        assert!(!reads || none == (0, 0), "{}", case.name);
    }
    for case in cases::writes() {
        for times in [1, 3] {
            let mut wanted = case.slip.clone();
            wanted.resize(case.room, 0xA5);
            let mut buffer = vec![0xA5; case.room];
            let (office, block) = (case.office, case.block);
            let given = timing::write_into(&case.log, office, block, &mut buffer, times);
            assert_eq!(
                (answer(given), buffer),
                (case.answer, wanted),
                "{}",
                case.name
            );
        }
    }
}
