//! A log of no bytes, and the nearest logs that are not it.

use super::{Case, bit_case, whole};
use skovarnek_compare::packed::{Item, Reader, read_log};
use skovarnek_compare::refusal::Refusal;

pub fn cases() -> Vec<Case> {
    let mut cases = vec![bit_case("no bytes", "", "empty")];
    cases.extend((0..=255).map(one_byte));
    cases.extend(near());
    cases
}

/// One byte has n and two bits more. A good n is cut behind it, in the trust bits
/// or in the length.
fn one_byte(byte: u8) -> Case {
    let report = match byte >> 2 {
        1..=32 => "log 27",
        _ => "log 1",
    };
    bit_case(
        &format!("one byte, {byte:02X}"),
        &format!("{byte:08b}"),
        report,
    )
}

/// n 4, all trusted, leader 0: three bytes.
const FOUR: &str = "000100 1111 000000001 00000";

fn near() -> Vec<Case> {
    vec![
        bit_case("two zero bytes", "00000000 00000000", "log 1"),
        bit_case("eight zero bytes", &"0".repeat(64), "log 1"),
        // n 25, any trust bits, 121 epochs, leader 1, and the next leader is cut.
        Case {
            name: "the line itself".to_string(),
            log: b"empty\n".to_vec(),
            report: "log 27\n".to_string(),
        },
        bit_case("an opening and nothing behind it", FOUR, "log 27"),
        bit_case(
            "an opening and an end",
            &format!("{FOUR} 0000"),
            "office 0 0 0 4, office 1 0 0 4, office 2 0 0 4, office 3 0 0 4",
        ),
        bit_case(
            "no offices, no leaders, an end",
            "000000 000000000 0000",
            "log 1",
        ),
    ]
}

/// Whatever is read there is cut, and the position stays.
fn assert_nothing_left(reader: &mut Reader) {
    let position = reader.position();
    assert_eq!(reader.item(), Err(Refusal::Cut));
    assert_eq!(reader.opening(), Err(Refusal::Cut));
    assert_eq!(reader.position(), position);
}

/// Only the report knows a log of no bytes; to the readers it is cut.
#[test]
fn no_bytes_are_cut_for_the_readers() {
    assert_eq!(read_log(&[]), Err(Refusal::Cut));
    let mut reader = Reader::new(&[]);
    assert_nothing_left(&mut reader);
    assert_eq!(reader.position(), 0);
}

#[test]
fn behind_an_opening_with_nothing_more() {
    let log = super::bits(FOUR);
    assert_eq!(read_log(&log), Err(Refusal::Cut));
    let mut reader = Reader::new(&log);
    reader.opening().expect("an opening");
    assert_eq!(reader.position(), 8 * log.len());
    assert_nothing_left(&mut reader);
}

#[test]
fn behind_the_end() {
    let log = whole::cases().swap_remove(0).log;
    let mut reader = Reader::new(&log);
    reader.opening().expect("an opening");
    while reader.item().expect("a step or the end") != Item::End {}
    assert_eq!(reader.position(), 8 * log.len());
    assert_nothing_left(&mut reader);
}
