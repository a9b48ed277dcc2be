//! The worked case bit by bit, and the log with all eight kinds.

use super::widths::{Kind, kinds};
use super::{
    FORMAT, assert_rows, block_behind, bytes_of, from_hex, number, report, table, text_of,
};
use skovarnek_compare::packed::{read_log, write_log};
use skovarnek_compare::text::parse;

const OPENING: [&str; 5] = ["bit", "field", "number", "bits", "bytes now full"];
const STEPS: [&str; 5] = ["bit", "step", "kind and fields", "bits", "bytes now full"];

fn whole_case() -> Vec<u8> {
    bytes_of("examples/sample-logs/whole-case.log")
}

/// The lines of the worked case's text.
fn lines() -> Vec<String> {
    let text = text_of("examples/sample-logs/whole-case.txt");
    text.lines().map(str::to_string).collect()
}

/// The bytes that a row of bits fills; the rest of it is left out.
pub fn full_bytes(bits: &str) -> Vec<u8> {
    let bytes = bits.as_bytes().chunks_exact(8);
    let bit = |bit: &u8| bit - b'0';
    bytes
        .map(|byte| byte.iter().fold(0, |value, next| value << 1 | bit(next)))
        .collect()
}

/// Each row starts where the one before it ends, and fills the bytes it names;
/// all together are the log.
#[test]
fn bits_and_bytes() {
    let rows = [table(FORMAT, &OPENING), table(FORMAT, &STEPS)].concat();
    let (mut bits, mut bytes) = (String::new(), Vec::new());
    for row in rows {
        assert_eq!(number(&row[0]), bits.len(), "{row:?}");
        assert!(row[3].chars().all(|bit| "01 ".contains(bit)), "{row:?}");
        bits.push_str(&row[3].replace(' ', ""));
        bytes.extend(from_hex(&row[4]));
        assert_eq!(bytes, full_bytes(&bits), "{row:?}");
    }
    assert_eq!(bits.len() % 8, 0);
    assert_eq!(bytes, whole_case());
}

/// The opening's numbers are those of its bits, and give the text's first lines.
#[test]
fn opening() {
    let (mut trusted, mut leaders) = ("trusted".to_string(), "leaders".to_string());
    let (mut offices, mut epochs) = (0, 0);
    for row in table(FORMAT, &OPENING) {
        let value = usize::from_str_radix(&row[3], 2).expect("bits");
        assert_eq!(number(&row[2]), value, "{row:?}");
        match row[1].as_str() {
            "n" => assert_eq!(lines()[0], format!("offices {value}")),
            "length of the schedule" => assert_eq!(value, 3),
            name if name == format!("trust of office {offices}") => {
                if value == 1 {
                    trusted.push_str(&format!(" {offices}"));
                }
                offices += 1;
            }
            name => {
                epochs += 1;
                assert_eq!(name, format!("leader of epoch {epochs}"));
                leaders.push_str(&format!(" {value}"));
            }
        }
    }
    assert_eq!((offices, epochs), (3, 3));
    assert_eq!(lines()[1..3], [trusted, leaders]);
}

/// Kind and fields of a row, as the row's bits and as a line of text.
fn bits_and_line(cell: &str, kinds: &[Kind]) -> (String, String) {
    let (word, fields) = cell.split_once(": ").unwrap_or((cell, ""));
    let place = kinds.iter().position(|kind| kind.name == word);
    let place = place.expect("a kind");
    let fields: Vec<&str> = fields
        .split(", ")
        .filter(|field| !field.is_empty())
        .collect();
    assert_eq!(fields.len(), kinds[place].fields.len(), "{cell}");
    let (mut bits, mut line) = (format!("{place:04b}"), word.to_string());
    for (field, (name, width)) in fields.iter().zip(&kinds[place].fields) {
        let (written, value) = field.split_once(' ').expect("a name and a number");
        assert_eq!(written, name, "{cell}");
        bits.push_str(&format!(" {:0width$b}", number(value)));
        line.push_str(&format!(" {value}"));
    }
    (bits, line)
}

#[test]
fn steps() {
    let kinds = kinds();
    let mut rows = table(FORMAT, &STEPS);
    let end = rows.pop().expect("the end");
    let mut said = Vec::new();
    for (place, row) in rows.iter().enumerate() {
        assert_eq!(number(&row[1]), place + 1, "{row:?}");
        let (bits, line) = bits_and_line(&row[2], &kinds);
        assert_eq!(row[3], bits, "{row:?}");
        said.push(line);
    }
    assert_rows(&said, &lines()[3..]);
    let pad = (8 - (number(&end[0]) + 4) % 8) % 8;
    assert_eq!(end[1], "end");
    assert_eq!(end[2], format!("end, and a pad of {pad} bits"));
    assert_eq!(end[3], format!("0000 {}", "0".repeat(pad)));
}

#[test]
fn all_bytes() {
    let log = whole_case();
    let words = format!("All {} bytes:", log.len());
    assert_eq!(from_hex(&block_behind(FORMAT, &words)), log);
}

#[test]
fn all_eight_kinds() {
    let heading = "## A log with all eight kinds";
    let log = parse(&block_behind(FORMAT, heading)).expect("a good text");
    let mut kinds: Vec<u8> = log.steps.iter().map(|step| step.kind()).collect();
    kinds.sort();
    kinds.dedup();
    assert_eq!(kinds, [1, 2, 3, 4, 5, 6, 7, 8]);
    let bytes = from_hex(&block_behind(FORMAT, "In bytes:"));
    assert_eq!(write_log(&log.opening, &log.steps), bytes);
    assert_eq!(report(&bytes).lines().count(), log.steps.len() + 3);
}

#[test]
fn logs_without_steps() {
    for (hex, offices) in [("06 01 00 00", 1), ("0F 80 C0 00 00", 3)] {
        assert!(text_of(FORMAT).contains(&format!("`{hex}`")), "{hex}");
        let bytes = from_hex(hex);
        assert_eq!(read_log(&bytes).expect("a log").steps, []);
        assert_eq!(report(&bytes).lines().count(), offices);
    }
}
