//! Packed logs and texts told apart, and the longest of them.

use crate::{cases, seeds};
use skovarnek_compare::explain::explain;
use skovarnek_compare::generate;
use skovarnek_compare::packed::{LONGEST_LOG, read_log, write_log};
use skovarnek_compare::text::{Form, form, given, log_text, parse, step_word};

/// The words that a line of a text can start with.
fn all_words() -> Vec<&'static str> {
    let steps = (1..=8).map(step_word);
    ["offices", "trusted", "leaders"]
        .into_iter()
        .chain(steps)
        .collect()
}

/// A word with one slip: a letter left out, doubled, changed, or two swapped.
fn with_slip(word: &str) -> Vec<String> {
    let mut slips = Vec::new();
    for place in 0..word.len() {
        let (start, end) = word.split_at(place);
        slips.push(format!("{start}{}", &end[1..]));
        slips.push(format!("{start}{}{end}", &end[..1]));
        slips.extend(('a'..='z').map(|letter| format!("{start}{letter}{}", &end[1..])));
        slips.push(format!("{start}{}{}", end[..1].to_uppercase(), &end[1..]));
        if end.len() > 1 {
            slips.push(format!("{start}{}{}{}", &end[1..2], &end[..1], &end[2..]));
        }
    }
    slips.retain(|slip| !slip.is_empty());
    slips
}

/// No log is taken for text, whole or cut or with a byte changed.
#[test]
fn no_packed_log_is_text() {
    for case in cases::all() {
        assert_eq!(form(&case.log), Form::Packed, "{}", case.name);
    }
    for seed in seeds() {
        assert_eq!(form(&generate::log(seed)), Form::Packed, "seed {seed}");
    }
    for seed in seeds().take(100) {
        let mut log = generate::log(seed);
        log.truncate(300);
        for place in 0..log.len() {
            assert_eq!(form(&log[..place]), Form::Packed, "seed {seed}, {place}");
            let byte = log[place];
            log[place] = b' ' + (seed % 95) as u8;
            assert_eq!(form(&log), Form::Packed, "seed {seed}, {place}");
            log[place] = byte;
        }
    }
}

/// Every text is taken for text, also where its last line has no end.
#[test]
fn no_text_is_a_packed_log() {
    let mut texts = 0;
    for seed in seeds().take(1000) {
        if let Ok(log) = read_log(&generate::log(seed)) {
            let text = log_text(&log);
            assert_eq!(form(text.as_bytes()), Form::Text, "seed {seed}");
            assert_eq!(form(text.trim_end().as_bytes()), Form::Text, "seed {seed}");
            for before in [
                "\n",
                "\t",
                "\r\n",
                "  ",
                "#\n",
                "# t\n",
                "#t\n",
                "#|\n",
                "# ünï\n",
            ] {
                let text = format!("{before}{}", text.trim_end());
                assert_eq!(form(text.as_bytes()), Form::Text, "seed {seed}, {before:?}");
            }
            texts += 1;
        }
    }
    assert!(texts > 100, "{texts}");
}

/// The bits of an opening up to its schedule say already that no log with a good
/// opening starts with these bytes.
fn begins_no_log(start: &[u8]) -> bool {
    let bit = |place: usize| start.get(place / 8).map(|byte| byte >> (7 - place % 8) & 1);
    let number = |from: usize, width: usize| {
        let mut bits = (from..from + width).map(bit);
        bits.try_fold(0, |number, bit| Some(2 * number + usize::from(bit?)))
    };
    let n = number(0, 6).expect("a byte");
    let untrusted = (6..6 + n).filter(|&place| bit(place) == Some(0)).count();
    let length = number(6 + n, 9);
    let bad_length = length.is_some_and(|length| !(1..=256).contains(&length));
    !(1..=32).contains(&n) || 3 * untrusted >= n || bad_length
}

/// What `given` says of the words of a text, read as packed logs.
#[test]
fn no_word_begins_a_log() {
    for word in all_words() {
        for slip in with_slip(word).into_iter().chain([word.to_string()]) {
            for behind in [" ", "\n", "\t", "\r\n"] {
                let start = format!("{slip}{behind}");
                assert!(begins_no_log(start.as_bytes()), "{start:?}");
            }
        }
    }
    for start in ["offices", "\t", "\n", "\r", " ", "  "] {
        let space_alone = start == " ";
        assert_eq!(begins_no_log(start.as_bytes()), !space_alone, "{start:?}");
    }
}

/// The same of what starts with a space or with `#`, if it is UTF-8 and its only
/// control characters are tabs and line ends.
#[test]
fn no_comment_begins_a_log() {
    let plain = |byte: &u8| byte.is_ascii_graphic() || b" \t\n\r".contains(byte) || *byte >= 0x80;
    let bytes: Vec<u8> = (0..=0xF4).filter(plain).collect();
    for &one in &bytes {
        assert!(begins_no_log(&[b' ', one]), "{one}");
        for &two in &bytes {
            if begins_no_log(&[b'#', one, two]) {
                continue;
            }
            // 8 offices, so the leaders start at bit 23.
            assert!(usize::from(one & 3) << 7 | usize::from(two >> 1) >= 4);
            for &four in &bytes {
                let third = four >> 2 & 31;
                let fourth = (four & 3) << 3;
                if third < 8 && fourth < 8 {
                    // Not the first byte of a character, so byte 3 is of it too.
                    assert!((0x80..0xC0).contains(&four));
                    for three in 0x80..=0xF4 {
                        let first = (two & 1) << 4 | three >> 4;
                        assert!(first >= 8);
                    }
                }
            }
        }
    }
}

/// A text with a slip gets its line, wherever the slip is, and never a verdict on
/// a packed log.
#[test]
fn slips_get_their_line() {
    let lines = [
        "offices 3",
        "trusted 0 1 2",
        "leaders 0 0",
        "propose 0 0 7",
        "deliver 0 1",
        "vote 1 0",
        "register 0 1",
        "finalise 0 1",
        "bad-send 0 vote 0 1",
        "draft 0 1 7",
        "advance",
    ];
    for (place, line) in lines.iter().enumerate() {
        let word = line.split(' ').next().expect("a word");
        for slip in with_slip(word).iter().filter(|slip| *slip != word) {
            let slipped = line.replacen(word, slip, 1);
            let mut text = lines.map(str::to_string);
            text[place] = slipped;
            let text = text.join("\n");
            let bad = explain(text.as_bytes()).expect_err(&text);
            assert!(bad.starts_with(&format!("line {}: ", place + 1)), "{bad}");
        }
    }
}

/// The text is refused so, whoever reads it.
#[track_caller]
fn assert_bad(text: &[u8], message: &str) {
    assert_eq!(explain(text), Err(message.to_string()));
    assert_eq!(given(text), Err(message.to_string()));
}

/// Where `offices` is due.
#[test]
fn texts_without_a_start() {
    let cases = [
        ("Dear offices, hello\n", 1, "Dear"),
        ("3 offices\ntrusted 0\n", 1, "3"),
        ("\n\nvote 1 0", 3, "vote"),
        ("OFFICES 3\n", 1, "OFFICES"),
    ];
    for (text, line, word) in cases {
        let start = "a text starts with offices, trusted, leaders";
        let message = format!("line {line}: `offices` is due here, not `{word}`: {start}");
        assert_bad(text.as_bytes(), &message);
    }
    assert_bad(
        b"# nothing yet\n",
        "line 2: the text ends where `offices` is due",
    );
    assert_bad(
        b"offices",
        "line 1: offices takes one number, 1 to 32, not 0",
    );
}

/// Odd characters, and a second opening.
#[test]
fn texts_that_go_wrong_later() {
    let bad = |behind: &[u8], message: &str| {
        let text = [b"offices 1\ntrusted 0\nleaders 0\n", behind].concat();
        assert_bad(&text, &format!("line 4: {message}"));
    };
    bad(
        b"vote 0\x0C1\x1A 0",
        "message `1\u{1a}` isn't a number from 0 to 1023",
    );
    bad(
        b"# bl\xF6ck\nadvance\n",
        "a character that isn't UTF-8; save the text as UTF-8",
    );
    bad(
        b"offices 1\n",
        "`offices` stands in the opening, once, and no step has this word",
    );
}

/// A mark of UTF-8 at the start says nothing. UTF-16 is called by its name, and is
/// no log of 63 offices.
#[test]
fn a_text_with_a_mark() {
    let units = "\u{feff}offices 1\r\ntrusted 0\r\n".encode_utf16();
    let little: Vec<u8> = units.clone().flat_map(u16::to_le_bytes).collect();
    let big: Vec<u8> = units.flat_map(u16::to_be_bytes).collect();
    let message = "line 1: a character that isn't UTF-8; save the text as UTF-8";
    assert_eq!(explain(&little), Err(message.to_string()));
    assert_eq!(explain(&big), Err(message.to_string()));
    let no_text = explain(&[0xFF, 0xFE, 0x00, 0x00]).expect("a packed log");
    assert!(no_text.starts_with("log 1 "));
    let text = "offices 1\ntrusted 0\nleaders 0\nadvance\n";
    let marked = format!("\u{feff}{text}");
    assert_eq!(explain(marked.as_bytes()), explain(text.as_bytes()));
    assert_eq!(parse(&marked), parse(text));
}

#[test]
fn given_either_way() {
    let text = "# one\noffices 1\ntrusted 0\nleaders 0\n# two\nadvance # three\n# four\n";
    let of_text = given(text.as_bytes()).expect("a good text");
    let words = |words: &[&str]| {
        words
            .iter()
            .map(|word| word.to_string())
            .collect::<Vec<_>>()
    };
    assert_eq!(
        of_text.comments,
        [words(&["one", "two", "three"]), words(&["four"])]
    );
    let bytes = write_log(&of_text.log.opening, &of_text.log.steps);
    let of_bytes = given(&bytes).expect("a good log");
    assert_eq!(of_bytes.log, of_text.log);
    assert_eq!(of_bytes.comments, [words(&[]), words(&[])]);
    let empty = "empty, a log of no bytes: there is no log yet";
    assert_eq!(given(&[]), Err(empty.to_string()));
    let cut = "log 27, cut: log ends before or inside a field that is due (in the opening)";
    assert_eq!(given(&[0x0F]), Err(cut.to_string()));
}

/// The longest log is explained, packed and as text; a longer one gets 30.
#[test]
fn the_longest_log() {
    let most = "offices 1\ntrusted 0\nleaders 0\n".to_string() + &"advance\n".repeat(131_065);
    let log = parse(&most).expect("65,536 bytes");
    let mut bytes = write_log(&log.opening, &log.steps);
    assert_eq!(bytes.len(), LONGEST_LOG);
    let explained = explain(&bytes).expect("a log");
    assert_eq!(explain(most.as_bytes()).as_ref(), Ok(&explained));
    assert!(explained.contains("\n131065 24 0 advance           spent: "));
    bytes.push(0);
    let long = "log 30    long log: over 65,536 bytes\n";
    assert_eq!(explain(&bytes).as_deref(), Ok(long));
    let more = most + "advance\n";
    let long = "log 30    long log: over 65,536 bytes (from line 131069 on)\n";
    assert_eq!(explain(more.as_bytes()).as_deref(), Ok(long));
}
