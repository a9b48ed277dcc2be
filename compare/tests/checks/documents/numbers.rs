//! Numbers and words of refusal, the order of each step's refusals, the limits.

use super::{FORMAT, RULES, assert_rows, number, table, text_of, widths};
use crate::header::number_in;
use skovarnek_compare::packed::LONGEST_LOG;
use skovarnek_compare::refusal::TABLE;
use skovarnek_compare::register::{LAST_BLOCK, LAST_EPOCH, LONGEST_SCHEDULE};
use skovarnek_compare::register::{MOST_MESSAGES, MOST_OFFICES, Office, Opening, is_quorum};

/// The table of all numbers.
pub const NUMBERS: [&str; 4] = ["number", "word", "meaning", "example"];

const REFUSALS: &str = "crates/refusals/src/lib.rt";
const NUMBERS_BY_RULE: &str = "crates/refusals/specs/Numbers.antt";
const REGISTER: &str = "crates/register/src/refusal.rt";
const PACKED_LOG: &str = "crates/packed_log/src/refusal.rt";
const SLIP: &str = "crates/slip/src/refusal.rt";

/// Number and name of each variant of the enum of refusals, in its order: a
/// variant without a number has the one behind that of the variant before it.
fn variants() -> Vec<(usize, String)> {
    let text = text_of(REFUSALS);
    let (_, behind) = text.split_once("pub enum Refusal {").expect("the enum");
    let (body, _) = behind.split_once('}').expect("the end of the enum");
    let mut next = 0;
    let mut variants = Vec::new();
    for variant in body.split(',').map(str::trim) {
        if variant.is_empty() {
            continue;
        }
        let (name, written) = variant.split_once(" = ").unwrap_or((variant, ""));
        assert!(name.chars().all(char::is_alphabetic), "no variant: {name}");
        if !written.is_empty() {
            next = number(written);
        }
        variants.push((next, name.to_string()));
        next += 1;
    }
    variants
}

/// Number and name of each variant, as the definition of their numbers has them.
fn numbers_by_rule() -> Vec<(usize, String)> {
    let text = text_of(NUMBERS_BY_RULE);
    let inner = |line: &str| {
        let (name, value) = line.strip_prefix("number_of ")?.split_once(" = ")?;
        Some((number(value), name.to_string()))
    };
    text.lines().filter_map(inner).collect()
}

/// The words of a variant's name: each starts with a capital letter.
fn words_of(variant: &str) -> String {
    let mut words = String::new();
    for letter in variant.chars() {
        if letter.is_uppercase() & !words.is_empty() {
            words.push(' ');
        }
        words.push(letter.to_ascii_lowercase());
    }
    words
}

/// Names of the constants of a file, and what they are, as written there.
fn constants(path: &str) -> Vec<(String, String)> {
    let text = text_of(path);
    let inner = |line: &str| {
        let (name, value) = line.strip_prefix("pub const ")?.split_once(": u8 = ")?;
        Some((name.to_string(), value.strip_suffix(';')?.to_string()))
    };
    text.lines().filter_map(inner).collect()
}

/// Number and word of each constant, by number. Its name and that of the variant
/// that it stands for are the same words.
fn numbers_of_the_code() -> Vec<(usize, String)> {
    let variants = variants();
    let constants = [REGISTER, PACKED_LOG, SLIP].map(constants).concat();
    let pair = |(name, written): &(String, String)| {
        let variant = written
            .strip_prefix("Refusal::")
            .and_then(|written| written.strip_suffix(" as u8"))
            .unwrap_or_else(|| panic!("{name} is no refusal: {written}"));
        let word = name.to_lowercase().replace('_', " ");
        assert_eq!(word, words_of(variant), "{name} is {written}");
        let found = variants.iter().find(|(_, other)| other == variant);
        let (number, _) = found.unwrap_or_else(|| panic!("{name}: no {written}"));
        (*number, word)
    };
    let mut pairs: Vec<(usize, String)> = constants.iter().map(pair).collect();
    pairs.sort();
    pairs
}

#[test]
fn numbers_and_words() {
    let rows = table(RULES, &NUMBERS);
    let written: Vec<(usize, String)> = rows
        .iter()
        .map(|row| (number(&row[0]), row[1].clone()))
        .collect();
    assert_rows(&written, &numbers_of_the_code());
    assert_rows(&numbers_by_rule(), &variants());
    let of_the_enum: Vec<(usize, String)> = variants()
        .iter()
        .map(|(number, name)| (*number, words_of(name)))
        .collect();
    assert_rows(&written, &of_the_enum);
    let words = TABLE.iter().map(|(word, _)| word.to_string());
    let of_this_package: Vec<(usize, String)> = (1..).zip(words).collect();
    assert_rows(&written, &of_this_package);
}

/// The numbers behind the tests of a definition, which an empty line ends.
fn order_in(path: &str, definition: &str) -> Vec<String> {
    let specs = text_of(path);
    let (_, behind) = specs.split_once(definition).expect("the definition");
    let body = behind.split("\n\n").next().unwrap_or_default();
    let digits = |text: &str| text.chars().take_while(char::is_ascii_digit).collect();
    body.split("⇒ ").skip(1).map(digits).collect()
}

/// 5 comes before all others. The fields are those of the packed log.
#[test]
fn steps() {
    let columns = [
        "step",
        "fields",
        "refusals, in order",
        "value when accepted",
    ];
    let rows = table(RULES, &columns);
    let kinds = widths::kinds().split_off(1);
    assert_eq!(rows.len(), kinds.len());
    for (row, kind) in rows.iter().zip(kinds) {
        assert_eq!(row[0], kind.name);
        let names: Vec<String> = kind.fields.into_iter().map(|(name, _)| name).collect();
        assert_eq!(row[1], names.join(", "), "{}", row[0]);
        let rule = row[0].replace(" ", "_");
        let definition = format!("abbrev pub {rule} : Book");
        let order = order_in("crates/register/specs/Steps.antt", &definition);
        assert_eq!(row[2], format!("5 {}", order.join(" ")), "{}", row[0]);
    }
}

#[test]
fn refusals_of_the_writer() {
    let writing = |definition| order_in("crates/packed_log/specs/Writing.antt", definition);
    let opening = order_in("crates/quorum/specs/Opening.antt", "pub opening_tests : ");
    let wanted = [
        (
            "write_opening",
            [opening, writing("pub opening_refused : ")].concat(),
        ),
        ("write_step", writing("pub row_refused : ")),
        ("write_end", writing("pub end_refused : ")),
    ];
    let wanted = wanted.map(|(call, order)| vec![call.to_string(), order.join(" ")]);
    assert_rows(&table(FORMAT, &["call", "refusals, in order"]), &wanted);
}

#[test]
fn limits() {
    let limit = |words| number_in("crates/register/src/limits.rt", words);
    let longest = number_in("crates/packed_log/src/item.rt", "LONGEST: usize = ");
    let wanted = [
        ("offices", limit("OFFICES: usize = "), MOST_OFFICES.into()),
        (
            "epochs in a schedule",
            limit("EPOCHS: usize = "),
            LONGEST_SCHEDULE,
        ),
        (
            "blocks, besides genesis",
            limit("MOST_BLOCKS: u16 = "),
            LAST_BLOCK.into(),
        ),
        (
            "epoch of a block, at most",
            limit("WIDEST_EPOCH: u16 = "),
            LAST_EPOCH.0.into(),
        ),
        ("messages", limit("MOST_MESSAGES: u16 = "), MOST_MESSAGES),
        ("bytes in a log", longest, LONGEST_LOG),
    ];
    let rows = table(RULES, &["what", "limit"]);
    assert_eq!(rows.len(), wanted.len());
    for (row, (what, proved, other)) in rows.iter().zip(wanted) {
        assert_eq!(row[0], what);
        assert_eq!(
            (number(&row[1]), number(&row[1])),
            (proved, other),
            "{what}"
        );
    }
}

/// What is enough is just enough, and what is not is just too little.
#[test]
fn enough_signers() {
    for row in table(RULES, &["n", "enough", "not enough"]) {
        let [n, enough, not] = [0, 1, 2].map(|cell| number(&row[cell]));
        assert_eq!(not + 1, enough, "{row:?}");
        assert!(is_quorum(enough as u32, n as u8), "{row:?}");
        assert!(!is_quorum(not as u32, n as u8), "{row:?}");
    }
}

#[test]
fn untrusted_offices() {
    let refusal = |n: usize, untrusted: usize| {
        let trust = u32::MAX << untrusted;
        let schedule = vec![Office(0)];
        let opening = Opening {
            n: n as u8,
            trust,
            schedule,
        };
        opening.check().map_err(|refusal| refusal.number())
    };
    let columns = ["n", "untrusted that open", "untrusted that get 4"];
    for row in table(RULES, &columns) {
        let [n, good, bad] = [0, 1, 2].map(|cell| number(&row[cell]));
        assert_eq!(good + 1, bad, "{row:?}");
        assert_eq!(
            (refusal(n, good), refusal(n, bad)),
            (Ok(()), Err(4)),
            "{row:?}"
        );
    }
}
