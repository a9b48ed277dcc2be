//! A second opinion on Streamlet logs.
//!
//! Several cemetery offices share a register of plots and agree on it by
//! Streamlet. This package checks a packed log of their steps and gives a
//! report. It was written from the rules alone, apart from the proved checker,
//! so that the reports of the two can be compared byte for byte.
//!
//! - [`register`]: the rules: the register, its opening and the eight steps.
//! - [`refusal`]: the numbers of refusal with their words.
//! - [`packed`]: reading and writing a packed log.
//! - [`report`]: the whole check, log bytes to report bytes.
//! - [`slip`]: slips, for those who hold no office: checked and written.
//! - [`text`]: a log as readable text and back; packed logs and texts told apart.
//! - [`explain`]: the report explained: why a step is refused, what it changes; and
//!   slips explained.
//! - [`mistaken`]: a student's wrong checkers beside the right one.
//! - [`draw`]: a picture of the block tree, as an office sees it.
//! - [`generate`]: logs and slips made from seeds, to compare and to measure with.
//! - `proved`: the C calls of the proved checker and of the proved slips (feature
//!   `proved`).
//!
//! `cargo test --release` checks this package by itself. With `--features
//! proved`, and `SKOVARNEK_LIB_DIR` set to the folder of `libskovarnek.a` and
//! `libskovarnek_slip.a`, it compares both checkers too. `SKOVARNEK_LOGS` sets how
//! many generated logs the tests take and `SKOVARNEK_FIRST_SEED` where their seeds
//! start. If the first is set, so many logs (20,000 at most) are also checked with
//! buffers of every length around their reports', else only 200. `cargo run
//! --release --features proved --bin bench` measures both on long logs and slips.
//! `--bin reports` writes the proved checker's reports, to compare two builds of
//! it.

pub mod draw;
pub mod explain;
pub mod generate;
pub mod mistaken;
pub mod packed;
#[cfg(feature = "proved")]
pub mod proved;
pub mod refusal;
pub mod register;
pub mod report;
pub mod slip;
pub mod text;

pub use refusal::Refusal;
pub use report::check;
