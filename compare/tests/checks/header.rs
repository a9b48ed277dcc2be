//! The numbers that the C headers give, against those that the proved code has.

use skovarnek_compare::packed::LONGEST_LOG;
use skovarnek_compare::report::report_bound;
use skovarnek_compare::slip::{LONGEST_SLIP, slip_bytes};
use std::fs;
use std::path::Path;

pub const HEADER: &str = "include/skovarnek.h";
pub const SLIP_HEADER: &str = "include/skovarnek_slip.h";

/// Where the contract's bound and the lengths of lines stand.
const REPORTS: &str = "crates/report/specs/Reports.antt";
const LINES: &str = "crates/report/specs/Text.antt";

/// The number that stands behind these words in a file of the repository.
pub fn number_in(path: &str, words: &str) -> usize {
    let path = Path::new(env!("CARGO_MANIFEST_DIR")).join("..").join(path);
    let text = fs::read_to_string(path).expect("a file");
    let (_, behind) = text.split_once(words).expect("the words");
    let digits: String = behind.chars().take_while(char::is_ascii_digit).collect();
    digits.parse().expect("a number")
}

#[test]
fn longest_log() {
    let header = number_in(HEADER, "SKOVARNEK_LONGEST_LOG ");
    assert_eq!(header, LONGEST_LOG);
}

#[test]
fn longest_report() {
    let header = number_in(HEADER, "SKOVARNEK_LONGEST_REPORT ");
    assert_eq!(header, report_bound(LONGEST_LOG));
    let code = number_in("crates/report/src/checking.rt", "LONGEST_REPORT: usize = ");
    assert_eq!(header, code);
}

/// The bound is that of the call's contract: so many steps for each byte of the
/// log, and so many offices, each with the bytes of its line.
#[test]
fn bound_of_a_report() {
    let for_each_byte = number_in(HEADER, "SKOVARNEK_LONGEST_LOG ? ");
    let for_offices = number_in(HEADER, "(size_t)(log_len) + ");
    let steps = number_in(REPORTS, "most_steps size = ");
    let offices = number_in(REPORTS, "most_steps size * step_bytes + ");
    assert_eq!(for_each_byte, steps * number_in(LINES, "step_bytes = "));
    assert_eq!(for_offices, offices * number_in(LINES, "office_bytes = "));
    for length in [0, 1, 53, LONGEST_LOG - 1, LONGEST_LOG] {
        let header = for_each_byte * length + for_offices;
        assert_eq!(header, report_bound(length));
    }
    assert_eq!(report_bound(usize::MAX), report_bound(LONGEST_LOG));
}

/// The longest slip is that of the call's contract, and what the header's bound
/// gives for 32 offices and 255 blocks.
#[test]
fn longest_slip() {
    let header = number_in(SLIP_HEADER, "SKOVARNEK_LONGEST_SLIP ");
    assert_eq!(header, LONGEST_SLIP);
    assert_eq!(header, slip_bytes(32, 255));
    let contract = number_in("crates/skovarnek_slip_c/src/lib.rt", "(result % 65536 ≤ ");
    assert_eq!(header, contract);
}
