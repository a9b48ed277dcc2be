//! The tests: hand-written cases, what the generated logs bring, what the logs
//! to measure with are, that final chains agree and never go back, who has
//! signed a block and how many have, slips, the text form, the tool, the explained
//! report, the lessons and their wrong checkers, the pictures, the C header's
//! numbers, the tables and examples of the documents, and (feature `proved`) the
//! comparison of both checkers and the proved program, or a word that it is left
//! out.

mod agreement;
mod cases;
mod counts;
mod coverage;
mod decided;
mod documents;
mod draw;
mod explain;
mod forks;
mod header;
mod heavy;
#[cfg(not(feature = "proved"))]
mod left_out;
mod lessons;
mod logtool;
mod never_back;
#[cfg(feature = "proved")]
mod program;
#[cfg(feature = "proved")]
mod proved;
mod registers;
#[cfg(feature = "proved")]
mod reports;
mod signers;
mod slips;
mod text;

/// The seeds of the generated logs that the tests look at.
fn seeds() -> std::ops::Range<u64> {
    seeds_or(4000)
}

/// As many seeds as `SKOVARNEK_LOGS` says, or else this many.
fn seeds_or(logs: u64) -> std::ops::Range<u64> {
    let number = |name: &str, default: u64| match std::env::var(name) {
        Ok(value) => value.parse().expect("a number"),
        Err(_) => default,
    };
    let first = number("SKOVARNEK_FIRST_SEED", 0);
    first..first + number("SKOVARNEK_LOGS", logs)
}
