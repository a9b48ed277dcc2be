//! Hand-written slips with their answers.

use super::{Answer, check, register_after, write};
use crate::documents::from_hex;
use skovarnek_compare::packed::write_log;
use skovarnek_compare::text::parse;

/// A slip, and what is said of it after the last step of a log.
pub struct Check {
    pub name: String,
    pub log: Vec<u8>,
    pub slip: Vec<u8>,
    pub answer: Answer,
}

/// A call of the writer, and what it gives and writes.
pub struct Write {
    pub name: String,
    pub log: Vec<u8>,
    pub office: u8,
    pub block: u8,
    /// The length of the buffer.
    pub room: usize,
    pub answer: Answer,
    pub slip: Vec<u8>,
}

/// The whole case of the paper. Offices 0 and 1 sign blocks 1 to 3, of epochs 1 to
/// 3, each on the one before; office 0 does not see office 1's vote for block 3.
const WHOLE: &str = "offices 3; trusted 0 1 2; leaders 0 0 0; propose 0 0 7; deliver 0 1; \
    vote 1 0; finalise 1 1; advance; propose 0 1 8; register 0 1; deliver 1 0; register 0 1; \
    propose 0 1 8; deliver 2 1; vote 1 2; deliver 3 0; register 0 3; advance; propose 0 2 9; \
    deliver 4 1; vote 1 4; finalise 1 3";

/// One office, and block 2 beside the chain of block 4: 1, 3, 4.
const ONE: &str = "offices 1; trusted 0; leaders 0 0 0; propose 0 0 1; advance; draft 0 9 9; \
    propose 0 1 2; advance; propose 0 3 3";

/// Offices 0, 1 and 2 sign blocks 1 and 2, but of block 2 each sees two signatures
/// at most.
const UNSEEN: &str = "offices 4; trusted 0 1 2 3; leaders 0 0; propose 0 0 7; deliver 0 1; \
    deliver 0 2; vote 1 0; vote 2 0; deliver 1 0; register 0 1; deliver 2 0; register 0 2; \
    deliver 2 1; register 1 2; deliver 1 2; register 2 1; advance; propose 0 1 8; deliver 3 1; \
    deliver 3 2; vote 1 3; vote 2 3";

/// Offices 0 and 1 and the untrusted office 3 sign blocks 1 and 2. Office 3's vote
/// for block 2 reaches nobody.
const BAD_SIGNER: &str = "offices 4; trusted 0 1 2; leaders 0 0; propose 0 0 7; deliver 0 1; \
    vote 1 0; bad-send 3 vote 3 1; deliver 1 0; register 0 1; deliver 2 0; register 0 2; \
    deliver 2 1; register 1 2; advance; propose 0 1 8; deliver 3 1; vote 1 3; bad-send 3 vote 3 2";

/// Blocks of epochs 0, 1 and 2, the oldest on genesis, signed by an untrusted
/// office.
const ON_EPOCH_0: &str = "offices 4; trusted 0 1 2; leaders 0; draft 0 0 5; draft 1 1 5; \
    draft 2 2 5; bad-send 3 vote 3 1; bad-send 3 vote 3 2; bad-send 3 vote 3 3";

/// Blocks of epochs 1, 2 and 4.
const GAP: &str = "offices 1; trusted 0; leaders 0 0 0 0; propose 0 0 1; advance; propose 0 1 2; \
    advance; advance; propose 0 2 3";

fn log(text: &str) -> Vec<u8> {
    let log = parse(&text.replace(';', "\n")).unwrap_or_else(|bad| panic!("{text}: {bad}"));
    write_log(&log.opening, &log.steps)
}

/// Of 32 offices the first 22 sign blocks 1 and 2. Office 0 sees all signatures.
fn log_of_32() -> Vec<u8> {
    let offices: Vec<String> = (0..32).map(|office: u8| office.to_string()).collect();
    let mut text = format!("offices 32; trusted {}; leaders 0 0", offices.join(" "));
    let voters = 1..=21;
    text.push_str("; propose 0 0 7");
    for voter in voters.clone() {
        text.push_str(&format!("; deliver 0 {voter}; vote {voter} 0"));
    }
    // The vote of office q is message q.
    for office in 0..=21 {
        for vote in voters.clone().filter(|&vote| vote != office) {
            text.push_str(&format!(
                "; deliver {vote} {office}; register {office} {vote}"
            ));
        }
    }
    text.push_str("; advance; propose 0 1 8");
    for voter in voters {
        text.push_str(&format!("; deliver 22 {voter}; vote {voter} 22"));
    }
    for vote in 23..=43 {
        text.push_str(&format!("; deliver {vote} 0; register 0 {vote}"));
    }
    log(&text)
}

/// Name, slip in hex, answer.
type Row = (&'static str, &'static str, Answer);

const OF_WHOLE: &[Row] = &[
    ("as office 1 writes it", "03 DB 00", (0, 2)),
    ("genesis the oldest of the three", "02 D8", (0, 1)),
    ("a block that is not made", "04 DB 00", (7, 0)),
    ("7 before 33: one byte", "04", (7, 0)),
    ("7 before 33: every bit set", "FF FF FF", (7, 0)),
    ("no bytes", "", (33, 0)),
    ("the block alone", "03", (33, 0)),
    ("a byte short", "03 DB", (33, 0)),
    ("a byte too many", "03 DB 00 00", (33, 0)),
    ("the first pad bit", "03 DB 40", (33, 0)),
    ("the last pad bit", "03 DB 01", (33, 0)),
    ("another block than the length is for", "02 DB 00", (33, 0)),
    ("33 before 34: a pad bit", "03 FB 01", (33, 0)),
    ("33 before 34: a byte too many", "03 FB 00 00", (33, 0)),
    ("33 before 21: a pad bit", "03 00 01", (33, 0)),
    ("office 2 marked for the oldest block", "03 FB 00", (34, 0)),
    ("office 2 marked for the newest block", "03 DB 80", (34, 0)),
    ("34 before 21: too few marks", "03 3B 00", (34, 0)),
    ("34 before 21: no run of three", "01 E0", (34, 0)),
    ("too few marks for the oldest block", "03 9B 00", (21, 0)),
    ("too few marks for the middle block", "03 D3 00", (21, 0)),
    ("too few marks for the newest block", "03 DA 00", (21, 0)),
    ("no marks", "03 00 00", (21, 0)),
    ("a block on genesis", "01 C0", (21, 0)),
    ("genesis", "00", (21, 0)),
    ("genesis and a byte more", "00 00", (33, 0)),
];

const OF_ONE: &[Row] = &[
    ("n is 1, a chain with a gap in its numbers", "04 E0", (0, 3)),
    ("n is 1, the order of the marks", "04 60", (21, 0)),
    ("n is 1, genesis the oldest of the three", "03 C0", (0, 1)),
    ("n is 1, a draft that nobody signed", "02 80", (34, 0)),
    ("n is 1, a draft without marks", "02 00", (21, 0)),
    ("n is 1, the first pad bit", "04 F0", (33, 0)),
];

const OF_32: &[Row] = &[
    ("n is 32, just enough", "02 FF FF FC 00 FF FF FC 00", (0, 1)),
    (
        "n is 32, one too few",
        "02 FF FF F8 00 FF FF FC 00",
        (21, 0),
    ),
    (
        "n is 32, the last office unsigned",
        "02 FF FF FC 01 FF FF FC 00",
        (34, 0),
    ),
    (
        "n is 32, one stands for another",
        "02 FF FF FC 00 FF FF FA 00",
        (34, 0),
    ),
    (
        "n is 32, a byte more where there is no pad",
        "02 FF FF FC 00 FF FF FC 00 00",
        (33, 0),
    ),
    ("n is 32, a byte less", "02 FF FF FC 00 FF FF FC", (33, 0)),
];

fn checks_of(log: &[u8], rows: &[Row]) -> Vec<Check> {
    let check = |&(name, slip, answer): &Row| Check {
        name: name.to_string(),
        log: log.to_vec(),
        slip: from_hex(slip),
        answer,
    };
    rows.iter().map(check).collect()
}

/// All slips that are checked.
pub fn checks() -> Vec<Check> {
    let unseen = [
        ("the history counts, not a view", "02 EE", (0, 1)),
        ("one mark less for the newest block", "02 EC", (21, 0)),
        ("office 3 signed nothing", "02 EF", (34, 0)),
    ];
    let bad_signer = [
        ("an untrusted signer counts", "02 DD", (0, 1)),
        ("without it the marks are too few", "02 DC", (21, 0)),
    ];
    let no_log = [("of a log that doesn't read", "00", (27, 0))];
    let refused = [("of a log with no offices", "", (1, 0))];
    let groups = [
        checks_of(&log(WHOLE), OF_WHOLE),
        checks_of(&log(ONE), OF_ONE),
        checks_of(&log_of_32(), OF_32),
        checks_of(&log(UNSEEN), &unseen),
        checks_of(&log(BAD_SIGNER), &bad_signer),
        checks_of(
            &log(ON_EPOCH_0),
            &[("a chain that is not valid", "03 11 10", (21, 0))],
        ),
        checks_of(&log(GAP), &[("epochs 1, 2 and 4", "03 E0", (21, 0))]),
        checks_of(&[], &no_log),
        checks_of(&[0], &refused),
    ];
    groups.into_iter().flatten().collect()
}

/// Office, block, length of the buffer, answer, slip in hex.
type Call = (u8, u8, usize, Answer, &'static str);

const ON_WHOLE: &[Call] = &[
    (1, 3, 3, (0, 3), "03 DB 00"),
    (1, 3, 4, (0, 3), "03 DB 00"),
    (1, 3, 1021, (0, 3), "03 DB 00"),
    // Final for office 1 is block 2, and finalise would get 32; a slip doesn't.
    (1, 2, 2, (0, 2), "02 D8"),
    (0, 2, 2, (0, 2), "02 D8"),
    (3, 3, 3, (6, 0), ""),
    (255, 3, 3, (6, 0), ""),
    // 6 before 7.
    (3, 4, 3, (6, 0), ""),
    (1, 4, 3, (7, 0), ""),
    (1, 255, 3, (7, 0), ""),
    // Too few signatures in the view, for office 2 none.
    (0, 3, 3, (21, 0), ""),
    (2, 3, 3, (21, 0), ""),
    (1, 1, 3, (21, 0), ""),
    (1, 0, 3, (21, 0), ""),
    // 21 before 31.
    (0, 3, 0, (21, 0), ""),
    (1, 3, 2, (31, 0), ""),
    (1, 3, 0, (31, 0), ""),
    (1, 2, 1, (31, 0), ""),
];

const ON_BAD_SIGNER: &[Call] = &[
    // 6 before 7, 7 before 10, 10 before 21.
    (4, 3, 9, (6, 0), ""),
    (3, 3, 9, (7, 0), ""),
    (3, 2, 9, (10, 0), ""),
    (3, 0, 0, (10, 0), ""),
    (0, 2, 9, (21, 0), ""),
];

fn writes_of(name: &str, log: &[u8], calls: &[Call]) -> Vec<Write> {
    let write = |&(office, block, room, answer, slip): &Call| Write {
        name: format!("{name}: office {office}, block {block}, a buffer of {room}"),
        log: log.to_vec(),
        office,
        block,
        room,
        answer,
        slip: from_hex(slip),
    };
    calls.iter().map(write).collect()
}

/// All calls of the writer.
pub fn writes() -> Vec<Write> {
    let on_one = [(0, 4, 2, (0, 2), "04 E0"), (0, 2, 2, (21, 0), "")];
    let on_32 = [
        (0, 2, 9, (0, 9), "02 FF FF FC 00 FF FF FC 00"),
        (0, 2, 8, (31, 0), ""),
        (1, 2, 9, (21, 0), ""),
        (31, 2, 9, (21, 0), ""),
        (32, 2, 9, (6, 0), ""),
    ];
    let on_unseen = [0, 1, 2, 3].map(|office| (office, 2, 9, (21, 0), ""));
    let no_log = [(0, 0, 3, (27, 0), ""), (255, 255, 0, (27, 0), "")];
    let groups = [
        writes_of("the whole case", &log(WHOLE), ON_WHOLE),
        writes_of("an untrusted signer", &log(BAD_SIGNER), ON_BAD_SIGNER),
        writes_of("n is 1", &log(ONE), &on_one),
        writes_of("n is 32", &log_of_32(), &on_32),
        writes_of("no view has enough", &log(UNSEEN), &on_unseen),
        writes_of("no log", &[], &no_log),
        writes_of("no offices", &[0], &[(0, 0, 3, (1, 0), "")]),
    ];
    groups.into_iter().flatten().collect()
}

#[test]
fn checked() {
    for case in checks() {
        let answer = check(&register_after(&case.log), &case.slip);
        assert_eq!(answer, case.answer, "{}", case.name);
    }
}

/// What was in the buffer stays behind the slip, and all of it where the writer
/// refuses.
#[test]
fn written() {
    for case in writes() {
        for dirt in [0, 0xA5, 0xFF] {
            let mut buffer = vec![dirt; case.room];
            let register = register_after(&case.log);
            let answer = write(&register, case.office, case.block, &mut buffer);
            assert_eq!(answer, case.answer, "{}", case.name);
            let mut wanted = case.slip.clone();
            wanted.resize(case.room, dirt);
            assert_eq!(buffer, wanted, "{}", case.name);
        }
    }
}
