//! The tables and examples of docs/RULES.md and docs/LOG-FORMAT.md, against the
//! code: the proved code's own text, this package, and (feature `proved`) what
//! the proved checker answers; and the pieces of Rattle in README.md.

mod examples;
mod numbers;
mod pieces;
mod slips;
mod widths;
mod worked;

use crate::slips::register_after;
use skovarnek_compare::check;
use skovarnek_compare::refusal::Refusal;
use skovarnek_compare::slip;
use std::fmt::Debug;
use std::fs;
use std::path::Path;

const RULES: &str = "docs/RULES.md";
const FORMAT: &str = "docs/LOG-FORMAT.md";

/// A file of the repository.
fn bytes_of(path: &str) -> Vec<u8> {
    let path = Path::new(env!("CARGO_MANIFEST_DIR")).join("..").join(path);
    fs::read(&path).unwrap_or_else(|error| panic!("{path:?}: {error}"))
}

fn text_of(path: &str) -> String {
    String::from_utf8(bytes_of(path)).expect("a text")
}

/// The cells of a line of a table; none if it is no such line.
fn cells(line: &str) -> Vec<String> {
    let inner = line
        .strip_prefix('|')
        .and_then(|line| line.strip_suffix('|'));
    let cells = inner.into_iter().flat_map(|inner| inner.split('|'));
    cells.map(|cell| cell.trim().to_string()).collect()
}

/// The rows of the document's table that has these columns.
fn table(document: &str, columns: &[&str]) -> Vec<Vec<String>> {
    let text = text_of(document);
    let mut lines = text.lines().skip_while(|line| cells(line) != columns);
    assert!(lines.next().is_some(), "{document}: no table {columns:?}");
    // Below the columns stands a rule.
    let lines = lines.skip(1).take_while(|line| line.starts_with('|'));
    let rows: Vec<Vec<String>> = lines.map(cells).collect();
    assert!(!rows.is_empty(), "{document}: nothing in {columns:?}");
    for row in &rows {
        assert_eq!(row.len(), columns.len(), "{document}: {row:?}");
    }
    rows
}

/// What a document has, row by row, is what it should have.
fn assert_rows<T: Debug + PartialEq>(written: &[T], wanted: &[T]) {
    for (written, wanted) in written.iter().zip(wanted) {
        assert_eq!(written, wanted);
    }
    assert_eq!(written.len(), wanted.len(), "rows are missing, or too many");
}

/// The first indented lines behind these words, without their indents.
fn block_behind(document: &str, words: &str) -> String {
    let text = text_of(document);
    let (_, behind) = text.split_once(words).expect("the words");
    let lines = behind.lines().skip_while(|line| !line.starts_with("    "));
    let block = lines.take_while(|line| line.starts_with("    "));
    block.map(|line| format!("{}\n", line.trim())).collect()
}

/// What stands between backticks.
fn quoted(cell: &str) -> Vec<&str> {
    cell.split('`').skip(1).step_by(2).collect()
}

/// A number, with or without commas between its thousands.
fn number(cell: &str) -> usize {
    let digits = cell.replace(',', "");
    digits
        .parse()
        .unwrap_or_else(|_| panic!("no number: {cell}"))
}

pub fn from_hex(text: &str) -> Vec<u8> {
    let byte = |pair| u8::from_str_radix(pair, 16).expect("a byte in hex");
    text.split_whitespace().map(byte).collect()
}

/// The report on a log, from both checkers where the proved one is linked.
fn report(log: &[u8]) -> String {
    let report = check(log);
    #[cfg(feature = "proved")]
    assert_eq!(skovarnek_compare::proved::check(log), report, "{log:02X?}");
    String::from_utf8(report).expect("a report is text")
}

/// What a slip gets at the end of a log: 0 or the refusal, and the answer; from
/// both where the proved calls are linked.
fn slip_answer(log: &[u8], bytes: &[u8]) -> (usize, usize) {
    let register = register_after(log).expect("a log that reads");
    let answer = match slip::check(&register, bytes) {
        Ok(parent) => (0, parent.index()),
        Err(refusal) => (Refusal::number(refusal).into(), 0),
    };
    #[cfg(feature = "proved")]
    {
        let (refusal, parent) = skovarnek_compare::proved::slip::check(log, bytes);
        assert_eq!((refusal as usize, parent), answer, "slip {bytes:02X?}");
    }
    answer
}
