//! What the documents say of slips: the worked one bit by bit, lengths, faults and
//! the order of refusals.

use super::worked::full_bytes;
use super::{FORMAT, RULES, bytes_of, from_hex, number, quoted, slip_answer, table, text_of};
use crate::slips::register_after;
use skovarnek_compare::packed::BLOCK_WIDTH;
use skovarnek_compare::register::{Block, Office, Register};
use skovarnek_compare::slip::{self, LONGEST_SLIP, slip_bytes};

const WORKED: [&str; 5] = ["bit", "part", "offices marked", "bits", "bytes now full"];

fn whole_case() -> Vec<u8> {
    bytes_of("examples/sample-logs/whole-case.log")
}

fn at_its_end() -> Register {
    register_after(&whole_case()).expect("a log that reads")
}

/// The slip that an office writes, by both where the proved calls are linked.
fn written(office: u8, block: u8) -> Vec<u8> {
    let slip = slip::write(&at_its_end(), Office(office), Block(block)).expect("a slip");
    let bytes = slip.bytes(3);
    #[cfg(feature = "proved")]
    {
        let mut buffer = vec![0xFF; bytes.len()];
        let log = whole_case();
        let given = skovarnek_compare::proved::slip::write_into(&log, office, block, &mut buffer);
        assert_eq!((given, &buffer), ((0, bytes.len()), &bytes));
    }
    bytes
}

/// Each row starts where the one before it ends, and fills the bytes it names; all
/// together are the slip.
#[test]
fn bits_and_bytes() {
    let (mut bits, mut bytes) = (String::new(), Vec::new());
    for row in table(FORMAT, &WORKED) {
        assert_eq!(number(&row[0]), bits.len(), "{row:?}");
        bits.push_str(&row[3]);
        bytes.extend(from_hex(&row[4]));
        assert_eq!(bytes, full_bytes(&bits), "{row:?}");
    }
    assert_eq!(bits.len() % 8, 0);
    assert_eq!(bytes, written(1, 3));
}

#[test]
fn widths() {
    let columns = ["part of a slip", "width", "how often", "what it says"];
    let rows = table(FORMAT, &columns);
    let written: Vec<(&str, usize)> = rows
        .iter()
        .map(|row| (&row[0][..], number(&row[1])))
        .collect();
    // With eight offices one block more takes so many bytes.
    let mark = slip_bytes(8, 2) - slip_bytes(8, 1);
    assert_eq!(
        written,
        [("block", BLOCK_WIDTH), ("mark", mark), ("pad", 1)]
    );
}

/// The parts are those of the chain, and the marks those of office 1's view.
#[test]
fn parts_and_marks() {
    let register = at_its_end();
    let view = register.view(Office(1));
    let rows = table(FORMAT, &WORKED);
    let [block, marks @ .., pad] = &rows[..] else {
        panic!("{rows:?}");
    };
    assert_eq!((&block[1][..], &block[2][..]), ("block 3", ""));
    assert_eq!((&block[3][..], BLOCK_WIDTH), ("00000011", 8));
    let chain = register.chain(Block(3));
    assert_eq!(marks.len(), chain.len());
    for (row, block) in marks.iter().zip(chain) {
        assert_eq!(row[1], format!("marks for block {}", block.0));
        let signed = |&q: &u8| view.has_signature(Office(q), block);
        let marked: Vec<String> = (0..3).filter(signed).map(|q| q.to_string()).collect();
        assert_eq!(row[2], marked.join(" "), "{row:?}");
        let bit = |q: u8| if signed(&q) { '1' } else { '0' };
        assert_eq!(row[3], (0..3).map(bit).collect::<String>(), "{row:?}");
    }
    assert_eq!(pad[1], format!("pad of {} bits", pad[3].len()));
    assert!(pad[3].chars().all(|bit| bit == '0'));
}

/// The slips that are named behind the worked one, and their answers.
#[test]
fn worked_answers() {
    let text = text_of(FORMAT);
    for (block, hex) in [(3, "03 DB 00"), (2, "02 D8")] {
        assert!(text.contains(&format!("`{hex}`, and its answer is block {}", block - 1)));
        assert_eq!(written(1, block), from_hex(hex));
        let answer = (0, usize::from(block) - 1);
        assert_eq!(slip_answer(&whole_case(), &from_hex(hex)), answer);
    }
}

#[test]
fn lengths() {
    let columns = [
        "n",
        "blocks in the chain",
        "bits without the pad",
        "pad",
        "bytes",
    ];
    for row in table(FORMAT, &columns) {
        let [n, blocks, bits, pad, bytes] = [0, 1, 2, 3, 4].map(|cell| number(&row[cell]));
        assert_eq!(bits, BLOCK_WIDTH + n * blocks, "{row:?}");
        assert_eq!((bits + pad, pad / 8), (8 * bytes, 0), "{row:?}");
        assert_eq!(slip_bytes(n as u8, blocks), bytes, "{row:?}");
    }
    let most = format!("No slip has more than {},021 bytes.", LONGEST_SLIP / 1000);
    assert_eq!(LONGEST_SLIP % 1000, 21);
    assert!(text_of(FORMAT).contains(&most));
}

/// Each example of a fault gets its number, and the faults stand in the order in
/// which the code judges them.
#[test]
fn faults() {
    let rows = table(FORMAT, &["number", "when", "slip"]);
    let mut numbers = Vec::new();
    for row in &rows {
        let examples = match row[2].as_str() {
            "no bytes" => vec![""],
            cell => quoted(cell),
        };
        assert!(!examples.is_empty(), "{row:?}");
        for hex in examples {
            let answer = slip_answer(&whole_case(), &from_hex(hex));
            assert_eq!(answer, (number(&row[0]), 0), "{row:?}");
        }
        numbers.push(row[0].as_str());
    }
    numbers.dedup();
    assert_eq!(
        format!("5 {}", numbers.join(" ")),
        order_of("pub fn check(")
    );
}

/// The order that the comment of a function of this package gives.
fn order_of(function: &str) -> String {
    let code = text_of("compare/src/slip.rs");
    let (before, _) = code.split_once(function).expect("the function");
    let (_, comment) = before.rsplit_once("/// [").expect("an order");
    comment.split(']').next().unwrap_or_default().to_string()
}

#[test]
fn refusals() {
    let columns = ["call", "refusals, in order", "answer when accepted"];
    let rows = table(RULES, &columns);
    let written: Vec<(&str, &str)> = rows.iter().map(|row| (&row[0][..], &row[1][..])).collect();
    let (check, write) = (order_of("pub fn check("), order_of("pub fn write_into("));
    let wanted = [("check a slip", &check[..]), ("write a slip", &write[..])];
    assert_eq!(written, wanted);
}
