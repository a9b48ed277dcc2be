//! Packed logs bit by bit: the opening, each kind, each fault.

use super::{Case, bit_case, bits};
use skovarnek_compare::check;

pub fn cases() -> Vec<Case> {
    let groups = [
        good(),
        openings(),
        thirds(),
        cuts(),
        cut_deliver(),
        kinds(),
        endings(),
        lengths(),
    ];
    groups.into_iter().flatten().collect()
}

/// n 3, all trusted, leaders 0 0 0: 33 bits.
const THREE: &str = "000011 111 000000011 00000 00000 00000";
/// n 3, all trusted, leaders 0 0: 28 bits, so that an end fills the byte.
const TWO_EPOCHS: &str = "000011 111 000000010 00000 00000";
/// n 1, trusted, leader 0: 21 bits.
const ONE: &str = "000001 1 000000001 00000";

const THREE_OFFICES: &str = "office 0 0 0 3, office 1 0 0 3, office 2 0 0 3";

/// A log with a step of each kind; the numbers are small but for the payload.
const EIGHT_KINDS: &str = "000100 1110 000000010 00011 00000 \
    0111 00000000 000000001 0000000000000101 \
    0110 00011 0 00011 00000001 \
    0101 0000000000 00001 \
    0010 00001 0000000000 \
    0101 0000000001 00000 \
    0011 00000 0000000001 \
    0100 00000 00000001 \
    1000 \
    0001 00000 00000000 1111111111111111 \
    0111 00000000 000000010 1111111111111111 \
    0000";

fn good() -> Vec<Case> {
    let wide = format!(
        "{THREE} 0001 11111 11111111 1111111111111111 0010 11111 1111111111 \
         0010 00000 1111111111 0011 00001 1000000000 0100 00010 10000000 0101 1111111111 00010 \
         0101 1111111111 11111 0110 00000 1 11110 11111111 0110 00000 1 00010 11111111 \
         0111 11111111 111111111 1111111111111111 0000"
    );
    let named = Case {
        name: "the opening in hexadecimal".to_string(),
        log: vec![0x0F, 0x80, 0xC0, 0x00, 0x00],
        report: THREE_OFFICES.replace(", ", "\n") + "\n",
    };
    vec![
        named,
        bit_case(
            "all eight kinds",
            EIGHT_KINDS,
            "1 0 1, 2 0 0, 3 0 0, 4 0 1, 5 0 1, 6 0 1, 7 21 0, 8 0 2, 9 0 2, 10 0 2, \
             office 0 0 0 4, office 1 0 0 4, office 2 0 0 4",
        ),
        bit_case(
            "the greatest fields",
            &wide,
            "1 6 0, 2 6 0, 3 8 0, 4 8 0, 5 7 0, 6 8 0, 7 6 0, 8 6 0, 9 7 0, 10 7 0, \
             office 0 0 0 3, office 1 0 0 3, office 2 0 0 3",
        ),
    ]
}

fn openings() -> Vec<Case> {
    vec![
        bit_case("n 0", "000000 00", "log 1"),
        bit_case("n 33", "100001 00", "log 1"),
        bit_case("n 63", "111111 11", "log 1"),
        bit_case("length 0, then nothing", "000011 111 000000000", "log 2"),
        bit_case("length 257", "000011 111 100000001", "log 2"),
        bit_case("length 511", "000011 111 111111111", "log 2"),
        bit_case("length 256", &long_schedule(), "office 0 0 0 1"),
        bit_case("leader n", "000011 111 000000001 00011 0000", "log 3"),
        bit_case("leader 31", "000001 1 000000001 11111 0000", "log 3"),
        bit_case(
            "a stray leader wins over a later cut",
            "000011 111 000000101 00011",
            "log 3",
        ),
        bit_case(
            "a stray leader wins over a third",
            "000011 110 000000001 00011 0000",
            "log 3",
        ),
        bit_case(
            "a stray last leader",
            "000011 111 000000010 00010 00011 0000",
            "log 3",
        ),
        bit_case(
            "a wrong length wins over a third",
            "000011 100 000000000 0000",
            "log 2",
        ),
        bit_case(
            "office 0 first among the trust bits",
            "000100 0111 000000001 00000 0000",
            "office 1 0 0 4, office 2 0 0 4, office 3 0 0 4",
        ),
    ]
}

fn long_schedule() -> String {
    let leaders = "0".repeat(5 * 256);
    format!("000001 1 100000000 {leaders} 0000")
}

/// Untrusted of n: 1 of 3 gives 4, 1 of 4 opens, 10 of 32 opens, 11 of 32 gives
/// 4; and 1 of 1, 1 of 2, 2 of 6, 2 of 7.
fn thirds() -> Vec<Case> {
    let opening = |n: usize, untrusted: usize, rest: &str| {
        let trust = "1".repeat(n - untrusted) + &"0".repeat(untrusted);
        format!("{n:06b} {trust} 000000001 00000 {rest}")
    };
    let third = |n, untrusted| {
        let name = format!("{untrusted} of {n} untrusted");
        bit_case(&name, &opening(n, untrusted, "0000"), "log 4")
    };
    let opens = |n, untrusted| {
        let name = format!("{untrusted} of {n} untrusted");
        let offices: Vec<String> = (0..n - untrusted)
            .map(|q| format!("office {q} 0 0 {n}"))
            .collect();
        bit_case(&name, &opening(n, untrusted, "0000"), &offices.join(", "))
    };
    vec![
        third(1, 1),
        third(2, 1),
        third(3, 1),
        opens(4, 1),
        third(6, 2),
        opens(7, 2),
        opens(32, 10),
        third(32, 11),
        // 23 bits: one is left, too few for a step.
        bit_case("a third wins over a cut", &opening(3, 1, ""), "log 4"),
        bit_case(
            "a third wins over a wrong step",
            &opening(3, 1, "1111"),
            "log 4",
        ),
    ]
}

fn cuts() -> Vec<Case> {
    vec![
        bit_case("cut in the trust bits", "000011 11", "log 27"),
        bit_case(
            "cut in a length that starts wrong",
            "000011 111 1111111",
            "log 27",
        ),
        bit_case("cut in a length of zeros", "000011 111 0000000", "log 27"),
        bit_case(
            "cut in a leader that starts wrong",
            "000011 111 000000010 00000 1",
            "log 27",
        ),
        bit_case(
            "cut before the second leader",
            "000010 11 000000010 00000 00",
            "log 27",
        ),
        bit_case(
            "one zero bit left",
            "000011 111 000000001 00000 0",
            "log 27",
        ),
        bit_case("three zero bits left", &format!("{ONE} 000"), "log 27"),
        bit_case("three set bits left", &format!("{ONE} 111"), "log 27"),
        bit_case("no bit left", "000100 1111 000000001 00000", "log 27"),
        bit_case("a step and no end", &format!("{TWO_EPOCHS} 1000"), "log 27"),
    ]
}

/// A deliver that is cut between and inside its fields: 33 bits stand before
/// it, and its 19 bits end in the seventh byte.
fn cut_deliver() -> Vec<Case> {
    let whole = bits(&format!("{THREE} 0101 0000000000 00001 0000"));
    let cut = |length: usize| Case {
        name: format!("a deliver cut to {length} bytes"),
        log: whole[..length].to_vec(),
        report: "log 27\n".to_string(),
    };
    (5..7).map(cut).collect()
}

fn kinds() -> Vec<Case> {
    let mut cases = Vec::new();
    for kind in 9..16 {
        // At the log's very end, and with more behind it.
        for more in ["", "0000", "1111 1111 1111"] {
            let log = format!("{TWO_EPOCHS} {kind:04b} {more}");
            cases.push(bit_case(&format!("kind {kind}, {more}"), &log, "log 28"));
        }
    }
    cases.push(bit_case(
        "a wrong kind behind good steps",
        &format!("{THREE} 1000 1000 1001"),
        "log 28",
    ));
    cases
}

fn endings() -> Vec<Case> {
    let full = format!("{TWO_EPOCHS} 0000");
    let mut cases = vec![
        bit_case("an end on a byte's border", &full, THREE_OFFICES),
        bit_case(
            "a zero byte behind it",
            &format!("{full} 00000000"),
            "log 29",
        ),
        bit_case("a byte behind it", &format!("{full} 10000000"), "log 29"),
        bit_case(
            "an end with seven pad bits",
            &format!("{ONE} 0000 0000000"),
            "office 0 0 0 1",
        ),
        bit_case(
            "a byte behind the pad",
            &format!("{ONE} 0000 0000000 00000000"),
            "log 29",
        ),
        bit_case(
            "a pad bit and a byte more",
            &format!("{ONE} 0000 0000001 00000000"),
            "log 29",
        ),
        bit_case(
            "the fault suppresses all lines",
            &format!("{THREE} 1000 1000 0000 001"),
            "log 29",
        ),
    ];
    for place in 0..7 {
        let pad = 1 << place;
        let log = format!("{ONE} 0000 {pad:07b}");
        cases.push(bit_case(&format!("pad bit {place} set"), &log, "log 29"));
    }
    cases
}

/// Around 65,536 bytes.
fn lengths() -> Vec<Case> {
    let of_length = |name: &str, start: Vec<u8>, length: usize, report: &str| {
        let mut log = start;
        log.resize(length, 0);
        Case {
            name: name.to_string(),
            log,
            report: report.to_string(),
        }
    };
    let advances = bits(&format!("{ONE} {} 0000 000", "1000".repeat(131_065)));
    let mut report: String = (1..=131_065)
        .map(|place| format!("{place} 24 0\n"))
        .collect();
    report.push_str("office 0 0 0 1\n");
    vec![
        of_length("65,536 bytes, n 0", vec![], 65_536, "log 1\n"),
        of_length("65,537 bytes, n 0", vec![], 65_537, "log 30\n"),
        of_length(
            "65,536 bytes, an end at once",
            bits(ONE),
            65_536,
            "log 29\n",
        ),
        of_length(
            "65,537 bytes, an end at once",
            bits(ONE),
            65_537,
            "log 30\n",
        ),
        of_length("131,065 advances", advances.clone(), 65_536, &report),
        of_length("131,065 advances and a byte", advances, 65_537, "log 30\n"),
    ]
}

/// Cut to one byte or more. What is cut to none is no log yet.
#[test]
fn every_cut_of_the_whole_case() {
    let whole = super::whole::cases().swap_remove(0).log;
    for length in 1..whole.len() {
        assert_eq!(
            check(&whole[..length]),
            b"log 27\n",
            "cut to {length} bytes"
        );
    }
    assert_eq!(check(&whole[..0]), b"empty\n");
}
