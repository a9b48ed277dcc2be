//! `logtool slip`, which writes slips and explains them.

use super::{logtool, sample, single_spaced, words};
use crate::documents::from_hex;
use crate::seeds;
use skovarnek_compare::explain::explain_slip;
use skovarnek_compare::generate::slip_calls;
use skovarnek_compare::refusal::TABLE;
use skovarnek_compare::register::Register;
use skovarnek_compare::slip::{self, Slip};
use std::fs;
use std::path::Path;

fn whole_case(end: &str) -> Vec<u8> {
    fs::read(sample(&format!("whole-case.{end}"))).expect("a file")
}

/// What the tool says of a slip on the whole case, which it reads from a file.
fn explained(name: &str, hex: &str) -> String {
    let file = Path::new(env!("CARGO_TARGET_TMPDIR")).join(name);
    fs::write(&file, from_hex(hex)).expect("a file");
    let file = file.to_str().expect("a path in UTF-8");
    let output = logtool(&["slip", "explain", file], &whole_case("log"));
    assert!(output.status.success());
    assert!(output.stderr.is_empty());
    words(&output.stdout)
}

/// From the log, and from its text.
#[test]
fn written() {
    for end in ["log", "txt"] {
        let output = logtool(&["slip", "write", "1", "3"], &whole_case(end));
        assert!(output.status.success());
        assert_eq!(output.stdout, from_hex("03 DB 00"));
        assert!(output.stderr.is_empty());
    }
}

#[test]
fn not_written() {
    let refused = [
        (
            "3",
            "3",
            "6, no office: there is no office 3: offices 0 to 2",
        ),
        (
            "1",
            "4",
            "7, no block: there is no block 4 yet: the newest is block 3",
        ),
        (
            "0",
            "3",
            "21, not final: the chain of block 3 is not notarised for office 0: block 3 lacks 1 of \
             the 2 signers needed (signers: 0; sent, but not in the view: 1)",
        ),
        (
            "1",
            "1",
            "21, not final: naming block 1 makes its parent final, and that is genesis",
        ),
    ];
    for (office, block, reason) in refused {
        let output = logtool(&["slip", "write", office, block], &whole_case("log"));
        assert!(!output.status.success());
        assert!(output.stdout.is_empty());
        let wanted = format!("refused with {reason}\n");
        assert_eq!(words(&output.stderr), wanted);
    }
    let barred = b"offices 4\ntrusted 0 1 2\nleaders 0\n";
    let output = logtool(&["slip", "write", "3", "0"], barred);
    let wanted =
        "refused with 10, barred: office 3 is untrusted, and this is for trusted offices\n";
    assert_eq!(words(&output.stderr), wanted);
}

#[test]
fn accepted() {
    let wanted = "\
slip 0 2                     accepted: block 2, the parent of block 3, is final

the chain of block 3, 3 blocks; of n = 3 offices 2 are enough
block 1, epoch 1             2 marked: 0, 1
block 2, epoch 2             2 marked: 0, 1
block 3, epoch 3             2 marked: 0, 1
";
    assert_eq!(explained("accepted.slip", "03 DB 00"), wanted);
}

#[test]
fn unsigned_and_too_few() {
    let wanted = "\
slip 34 0                    unsigned mark: block 1 is marked for office 2, which never signed it

the chain of block 3, 3 blocks; of n = 3 offices 2 are enough
block 1, epoch 1             1 marked: 2; never signed by office 2; too few
block 2, epoch 2             2 marked: 0, 1
block 3, epoch 3             1 marked: 0; too few
";
    assert_eq!(explained("unsigned.slip", "03 3A 00"), wanted);
}

/// Slips on the whole case, and how the line starts and goes on that says why they
/// are refused.
const REFUSED: [(&str, &str, &str); 7] = [
    (
        "04",
        "slip 7 0",
        "no block: it names block 4, and the newest is block 3",
    ),
    (
        "",
        "slip 33 0",
        "slip form: it has no bytes, and the first is to name a block",
    ),
    (
        "02",
        "slip 33 0",
        "slip form: it names block 2; with a chain of 2 blocks and n = 3 it is to have 2 bytes, not 1",
    ),
    (
        "03 DB 08",
        "slip 33 0",
        "slip form: bit 20 is set, and from bit 17 on all are to be zero",
    ),
    (
        "03 9B 00",
        "slip 21 0",
        "not final: block 1 has 1 of the 2 marks needed",
    ),
    (
        "01 C0",
        "slip 21 0",
        "not final: naming block 1 makes its parent final, and that is genesis",
    ),
    (
        "00",
        "slip 21 0",
        "not final: genesis has no parent that could become final",
    ),
];

#[test]
fn refused() {
    for (place, (hex, start, reason)) in REFUSED.into_iter().enumerate() {
        let said = explained(&format!("refused-{place}.slip"), hex);
        let (said, _) = said.split_once("\n\n").unwrap_or((&said, ""));
        let wanted = format!("{start} {reason}");
        assert_eq!(single_spaced(said), wanted, "{hex}");
    }
}

#[test]
fn bad_calls() {
    let calls: [(&[&str], &str); 5] = [
        (&["slip"], "usage: "),
        (&["slip", "write", "1"], "usage: "),
        (
            &["slip", "write", "1", "256"],
            "slip write takes numbers from 0 to 255, not `256`\n",
        ),
        (
            &["slip", "write", "+1", "3"],
            "slip write takes numbers from 0 to 255, not `+1`\n",
        ),
        (&["slip", "explain", "no-such.slip"], "no-such.slip: "),
    ];
    for (arguments, start) in calls {
        let output = logtool(arguments, &whole_case("log"));
        assert!(!output.status.success(), "{arguments:?}");
        assert!(output.stdout.is_empty(), "{arguments:?}");
        assert!(words(&output.stderr).starts_with(start), "{arguments:?}");
    }
}

/// A log that doesn't read, and none.
#[test]
fn bad_logs() {
    let logs: [(&[u8], &str); 2] = [
        (&[0], "log 1, count: n not 1 to 32 (in the opening)\n"),
        (b"", "empty, a log of no bytes: there is no log yet\n"),
    ];
    for (log, wanted) in logs {
        let output = logtool(&["slip", "write", "0", "0"], log);
        assert!(!output.status.success());
        assert_eq!(words(&output.stderr), wanted);
    }
}

/// Starts with the refusal and the answer, has a line for each block of the chain
/// where the form is right, is nowhere wider than 110 columns, and gives a reason
/// that says more than the refusal's meaning.
fn assert_explained(register: &Register, bytes: &[u8]) {
    let said = explain_slip(register, bytes);
    let answer = slip::check(register, bytes);
    let start = match answer {
        Ok(parent) => format!("slip 0 {} ", parent.0),
        Err(refusal) => format!("slip {} 0 ", refusal.number()),
    };
    assert!(said.starts_with(&start), "{said}");
    let blocks = said.lines().filter(|line| line.starts_with("block "));
    let slip = Slip::read(register, bytes);
    assert_eq!(
        blocks.count(),
        slip.map_or(0, |slip| slip.marks.len()),
        "{said}"
    );
    assert!(said.lines().all(|line| line.len() <= 110), "{said}");
    let first = said.lines().next().expect("a line");
    let general = |&(_, meaning): &(&str, &str)| first.ends_with(meaning);
    assert!(!TABLE.iter().any(general), "{said}");
}

#[test]
fn generated_slips_explained() {
    for seed in seeds().take(300) {
        let calls = slip_calls(seed);
        if let Some(register) = &calls.register {
            for bytes in &calls.slips {
                assert_explained(register, bytes);
            }
        }
    }
}
