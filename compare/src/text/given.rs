//! A log as it is handed in: packed or as text.
//!
//! How the two are told apart. What reads as a packed log is one: so no packed
//! log that reads is ever taken for text. Other bytes are text if
//!
//! - their first word that is no comment is one of a text's words; or
//! - they have no control characters but tabs and line ends, and some line of
//!   them starts with such a word or nearly one; or
//! - they have no such characters, are UTF-8, and say nothing: five bytes or more
//!   of comments and blanks, up to a line's end; or
//! - they have no such characters, are UTF-8, and are sixteen bytes or more.
//!
//! All else is a packed log with a fault. (Text in UTF-16 that starts with its mark
//! is text too, and told that it must be UTF-8: the mark makes 63 offices.)
//!
//! Why no text is taken for a packed log. The end of a packed log is four zero
//! bits or more, so its last byte is a multiple of 16, and a line's end is none.
//! That leaves texts whose last line has no end. What starts with `offices`, read
//! as a packed log, has 27 offices and a schedule of 397, which gets 2. What
//! starts with a tab or a line's end has 2 or 3 offices, one of them untrusted,
//! which is too many; with a space, 8 offices, of which two are untrusted and the
//! others trusted only if a byte follows that is in no UTF-8. What starts with `#`
//! has 8 offices too. A schedule of less than 4 would need a control character
//! (byte 2). In a longer one the third and the fourth leader are below 8 only if
//! byte 4 starts with 000 or 100 and ends in 00: no tab, no line's end, no letter.
//! A part of a longer character may be such a byte; but then byte 3 is a part of
//! it too, and makes the first leader 8 or more.
//!
//! Why a damaged log is hardly ever taken for text. It would have to spell out such
//! a word. None of the words, nor one with a slip, begins a log with a good
//! opening, and by the above no five bytes of comments and blanks do. Without a
//! word it would need to be free of control characters. But the first byte of a
//! log of 1 to 7 offices is one, unless its trust is refused, and so are all bytes
//! that start with 000, which small numbers in wide fields bring. Damage can write
//! anything, of course, a text too; the generated logs have no such.

use super::parse::{BadText, OPENING_LINES, parse, words_and_comment};
use super::slips::{is_nearly_a_word, is_word};
use super::{NO_LOG, text_so_far};
use crate::packed::{Log, read_log};
use crate::report::EMPTY;

/// A log that reads, and what its text says beside it.
#[derive(Clone, Debug, PartialEq, Eq)]
pub struct Given {
    pub log: Log,
    /// Of each step the comments before it and in its line, without the `#`; last
    /// those behind the last step. A packed log has none.
    pub comments: Vec<Vec<String>>,
}

/// What bytes are meant to be.
#[derive(Clone, Copy, Debug, PartialEq, Eq)]
pub enum Form {
    Packed,
    Text,
}

/// No log with a good opening starts with this many bytes of comments and blanks.
const SURELY_COMMENT: usize = 5;
const SURELY_TEXT: usize = 16;

/// The log in these bytes, packed or as text, or what is wrong with them.
pub fn given(bytes: &[u8]) -> Result<Given, String> {
    match form(bytes) {
        Form::Text => given_text(bytes).map_err(|bad| bad.to_string()),
        Form::Packed => given_packed(bytes),
    }
}

fn given_packed(bytes: &[u8]) -> Result<Given, String> {
    if bytes.is_empty() {
        return Err(format!("{EMPTY}, {NO_LOG}"));
    }
    if let (_, Some(fault)) = text_so_far(bytes) {
        let number = fault.refusal.number();
        return Err(format!("log {number}, {}", fault.phrase()));
    }
    let log = read_log(bytes).expect("no fault was found");
    let comments = vec![Vec::new(); log.steps.len() + 1];
    Ok(Given { log, comments })
}

/// The log in bytes that are text.
pub(crate) fn given_text(bytes: &[u8]) -> Result<Given, BadText> {
    let text = std::str::from_utf8(bytes).map_err(|error| {
        let before = &bytes[..error.valid_up_to()];
        let line = before.iter().filter(|&&byte| byte == b'\n').count() + 1;
        BadText::new(line, "a character that isn't UTF-8; save the text as UTF-8")
    })?;
    let log = parse(text)?;
    let comments = comments(text);
    Ok(Given { log, comments })
}

/// The comments of a good text.
fn comments(text: &str) -> Vec<Vec<String>> {
    let mut comments = vec![Vec::new()];
    let mut lines = 0;
    for line in text.lines() {
        let (words, comment) = words_and_comment(line);
        let last = comments.last_mut().expect("never empty");
        last.extend(comment.map(|comment| {
            let comment = comment.strip_prefix(' ').unwrap_or(comment);
            comment.trim_end().to_string()
        }));
        if !words.trim().is_empty() {
            lines += 1;
            if lines > OPENING_LINES {
                comments.push(Vec::new());
            }
        }
    }
    comments
}

/// Whether bytes are a packed log or text.
pub fn form(bytes: &[u8]) -> Form {
    let no_log = !bytes.is_empty() && read_log(bytes).is_err();
    match no_log && (is_text(bytes) || is_utf16_text(bytes)) {
        true => Form::Text,
        false => Form::Packed,
    }
}

/// Text as some editors and shells write it, with a mark that says in which order
/// the bytes stand.
fn is_utf16_text(bytes: &[u8]) -> bool {
    let order = match bytes {
        [0xFF, 0xFE, ..] => u16::from_le_bytes,
        [0xFE, 0xFF, ..] => u16::from_be_bytes,
        _ => return false,
    };
    let pairs = bytes[2..].chunks_exact(2);
    let units: Vec<u16> = pairs.map(|pair| order([pair[0], pair[1]])).collect();
    let text = String::from_utf16_lossy(&units);
    let mut first_words = text.lines().filter_map(first_word);
    first_words.next().is_some_and(is_nearly_a_word)
}

fn is_text(bytes: &[u8]) -> bool {
    let text = String::from_utf8_lossy(bytes);
    let text = text.strip_prefix('\u{feff}').unwrap_or(&text);
    let mut first_words = text.lines().filter_map(first_word);
    let Some(first) = first_words.next() else {
        return has_no_control(bytes) && (is_surely_comment(bytes) || is_surely_text(bytes));
    };
    is_word(first)
        || has_no_control(bytes)
            && (is_nearly_a_word(first)
                || first_words.any(is_nearly_a_word)
                || is_surely_text(bytes))
}

/// Comments and blanks that no good log starts with, up to a line's end.
fn is_surely_comment(bytes: &[u8]) -> bool {
    let is_utf8 = std::str::from_utf8(bytes).is_ok();
    is_utf8 && bytes.len() >= SURELY_COMMENT && bytes.ends_with(b"\n")
}

/// So many characters without a control character among them are no log.
fn is_surely_text(bytes: &[u8]) -> bool {
    bytes.len() >= SURELY_TEXT && std::str::from_utf8(bytes).is_ok()
}

fn first_word(line: &str) -> Option<&str> {
    let (words, _) = words_and_comment(line);
    words.split_ascii_whitespace().next()
}

/// No control characters but tabs and line ends.
fn has_no_control(bytes: &[u8]) -> bool {
    let is_odd = |byte: &u8| byte.is_ascii_control() && !b"\t\n\r".contains(byte);
    !bytes.iter().any(is_odd)
}
