//! The widths of the packed log's fields.

use super::{FORMAT, assert_rows, number, table, text_of};
use crate::header::number_in;
use skovarnek_compare::packed::opening_bits;
use skovarnek_compare::packed::{COUNT_WIDTH, KIND_WIDTH, LENGTH_WIDTH, OFFICE_WIDTH, WIDTHS};
use skovarnek_compare::register::{Office, Opening};
use skovarnek_compare::text::step_word;
use std::collections::BTreeSet;

const CODE: &str = "crates/packed_log/src/widths.rt";

/// A kind as the proved code has it.
pub struct Kind {
    pub name: String,
    /// Name and width of each field.
    pub fields: Vec<(String, usize)>,
    /// The bits of all fields.
    due: usize,
}

/// The kinds from 0 up, from the table of the proved code: a comment with a
/// kind's name and fields, and below it their widths.
pub fn kinds() -> Vec<Kind> {
    let code = text_of(CODE);
    let (_, behind) = code
        .split_once("const WIDTHS: [u64; KINDS] = [")
        .expect("the table");
    let (entries, _) = behind.split_once("];").expect("the table's end");
    let lines: Vec<&str> = entries.lines().map(str::trim).collect();
    let lines: Vec<&str> = lines.into_iter().filter(|line| !line.is_empty()).collect();
    lines.chunks(2).map(|pair| kind(pair[0], pair[1])).collect()
}

/// An entry has the bits of all fields, then the widths of four columns.
fn kind(comment: &str, entry: &str) -> Kind {
    let words = comment.strip_prefix("// ").expect("a comment");
    let (name, names) = words.split_once(": ").unwrap_or((words, ""));
    let names: Vec<&str> = names.split(", ").filter(|name| !name.is_empty()).collect();
    let digits = entry
        .strip_prefix("0x")
        .and_then(|entry| entry.strip_suffix(','));
    let bytes = digits.expect("an entry").split('_');
    let byte = |digits| usize::from_str_radix(digits, 16).expect("a byte");
    let bytes: Vec<usize> = bytes.map(byte).collect();
    assert_eq!(bytes.len(), 5, "{entry}");
    let (used, unused) = bytes[1..].split_at(names.len());
    assert!(used.iter().all(|&width| width > 0), "{comment} {entry}");
    assert!(unused.iter().all(|&width| width == 0), "{comment} {entry}");
    let names = names.into_iter().map(str::to_string);
    Kind {
        name: name.to_string(),
        fields: names.zip(used.iter().copied()).collect(),
        due: bytes[0],
    }
}

/// The row that the document should have.
fn row(place: usize, kind: &Kind) -> Vec<String> {
    let field = |column: usize| match kind.fields.get(column) {
        Some((name, width)) => format!("{name} {width}"),
        None => String::new(),
    };
    let mut row = vec![place.to_string(), format!("{place:04b}"), kind.name.clone()];
    row.extend((0..4).map(field));
    row.push((KIND_WIDTH + kind.due).to_string());
    row
}

#[test]
fn kinds_and_fields() {
    let kinds = kinds();
    let rows: Vec<Vec<String>> = (0..)
        .zip(&kinds)
        .map(|(place, kind)| row(place, kind))
        .collect();
    let columns = [
        "kind",
        "bits",
        "step",
        "first",
        "second",
        "third",
        "fourth",
        "bits in all",
    ];
    assert_rows(&table(FORMAT, &columns), &rows);
    assert_eq!(number_in(CODE, "KIND_WIDTH: usize = "), KIND_WIDTH);
    for (place, kind) in kinds.iter().enumerate() {
        let widths: Vec<usize> = kind.fields.iter().map(|&(_, width)| width).collect();
        assert_eq!(widths, WIDTHS[place], "{}", kind.name);
        assert_eq!(widths.iter().sum::<usize>(), kind.due, "{}", kind.name);
        assert_eq!(step_word(place as u8).replace('-', " "), kind.name);
    }
}

#[test]
fn greatest_numbers() {
    let fields = kinds().into_iter().flat_map(|kind| kind.fields);
    let greatest = |(name, width): (String, usize)| (name, width, (1 << width) - 1);
    let wanted: BTreeSet<(String, usize, usize)> = fields.map(greatest).collect();
    let rows = table(FORMAT, &["field", "width", "greatest number", "what it is"]);
    assert_eq!(rows.len(), wanted.len());
    let rows = rows.iter();
    let written: BTreeSet<(String, usize, usize)> = rows
        .map(|row| (row[0].clone(), number(&row[1]), number(&row[2])))
        .collect();
    assert_eq!(written, wanted);
}

/// How many bits one office more takes.
fn trust_width() -> usize {
    let bits = |n| {
        let (trust, schedule) = (1, vec![Office(0)]);
        opening_bits(&Opening { n, trust, schedule })
    };
    bits(2) - bits(1)
}

#[test]
fn opening() {
    let code = |words| number_in("crates/packed_log/src/opening.rt", words);
    assert_eq!(code("COUNT_WIDTH: usize = "), COUNT_WIDTH);
    assert_eq!(code("LENGTH_WIDTH: usize = "), LENGTH_WIDTH);
    assert_eq!(code("LEADER_WIDTH: usize = "), OFFICE_WIDTH);
    let wanted = [
        ("n", COUNT_WIDTH),
        ("trust", trust_width()),
        ("length of the schedule", LENGTH_WIDTH),
        ("leader", OFFICE_WIDTH),
    ];
    let rows = table(FORMAT, &["field", "width", "how often", "what it holds"]);
    let written: Vec<(&str, usize)> = rows
        .iter()
        .map(|row| (row[0].as_str(), number(&row[1])))
        .collect();
    assert_rows(&written, &wanted);
}
