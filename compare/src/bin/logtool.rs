//! Packed logs for people: `logtool text < log`, `logtool log < text`, and of a
//! log or a text `logtool explain`, `logtool mistake NAME`, `logtool draw` and
//! `logtool slip`.

use skovarnek_compare::draw;
use skovarnek_compare::explain;
use skovarnek_compare::mistaken;
use skovarnek_compare::packed::{read_log, write_log};
use skovarnek_compare::register::{Block, Office, Register};
use skovarnek_compare::report::{EMPTY, run_with};
use skovarnek_compare::{slip, text};
use std::env;
use std::fs;
use std::io::{self, Read, Write};
use std::process::ExitCode;

const USAGE: &str = "\
usage: logtool text < LOG                  the log as text
       logtool log < TEXT                  the text as a packed log
and of a log or a text:
       logtool explain < LOG               the report, each line with its reason
       logtool mistake NAME < LOG          where a student's wrong checker differs; NAME or `all`
       logtool draw < LOG                  the block tree as an SVG picture
               [--office Q] [--step K]     as office Q sees it, after step K
       logtool slip write OFFICE BLOCK < LOG > SLIP
                                           a slip for the block from the office's view
       logtool slip explain SLIP < LOG     who is marked in that file, and what it gets";

fn main() -> ExitCode {
    let arguments: Vec<String> = env::args().skip(1).collect();
    let words: Vec<&str> = arguments.iter().map(String::as_str).collect();
    let result = match words[..] {
        ["text"] => to_text(),
        ["log"] => to_log(),
        ["explain"] => explain(),
        ["mistake", name] => mistake(name),
        ["draw", ref choices @ ..] => draw_tree(choices),
        ["slip", "write", office, block] => write_slip(office, block),
        ["slip", "explain", slip] => explain_slip(slip),
        _ => Err(USAGE.to_string()),
    };
    match result {
        Ok(()) => ExitCode::SUCCESS,
        Err(message) => {
            eprintln!("{message}");
            ExitCode::FAILURE
        }
    }
}

/// A log that doesn't read gives its text as far as it reads, and the fault
/// behind a `#`. A log of no bytes has no fault: behind the `#` stands what it
/// means. A text is no log with a fault.
fn to_text() -> Result<(), String> {
    let log = input()?;
    if text::form(&log) == text::Form::Text {
        return Err("this is text, not a packed log".to_string());
    }
    if log.is_empty() {
        return output(format!("# {EMPTY}, {}\n", text::NO_LOG).as_bytes());
    }
    let (mut text, fault) = text::text_so_far(&log);
    let fault = fault.map(|fault| format!("log {}, {}", fault.refusal.number(), fault.phrase()));
    if let Some(fault) = &fault {
        text.push_str(&format!("# {fault}\n"));
    }
    output(text.as_bytes())?;
    fault.map_or(Ok(()), Err)
}

fn to_log() -> Result<(), String> {
    let input = input()?;
    if read_log(&input).is_ok() {
        return Err("this is a packed log, not text".to_string());
    }
    let text = String::from_utf8(input).map_err(|_| "the text isn't UTF-8".to_string())?;
    let log = text::parse(&text).map_err(|bad| bad.to_string())?;
    output(&write_log(&log.opening, &log.steps))
}

fn explain() -> Result<(), String> {
    output(explain::explain(&input()?)?.as_bytes())
}

/// A name that is not known is noticed before anything is read.
fn mistake(name: &str) -> Result<(), String> {
    let chosen = mistaken::named(name);
    if chosen.is_none() && name != "all" {
        let names = mistaken::names();
        return Err(format!(
            "there is no mistake `{name}`; there are: {names} all"
        ));
    }
    let log = text::given(&input()?)?.log;
    let told = match chosen {
        Some(mistake) => mistaken::compare(&log, mistake),
        None => mistaken::compare_all(&log),
    };
    output(told.as_bytes())
}

fn draw_tree(choices: &[&str]) -> Result<(), String> {
    let choice = draw::choose(choices)?;
    output(draw::draw(&choice, &input()?)?.as_bytes())
}

/// The slip's bytes, or why there is none.
fn write_slip(office: &str, block: &str) -> Result<(), String> {
    let (office, block) = (Office(byte(office)?), Block(byte(block)?));
    let register = register_at_the_end()?;
    let slip = slip::write(&register, office, block)
        .map_err(|refusal| explain::why_not_written(&register, office, block, refusal))?;
    output(&slip.bytes(register.n()))
}

/// A file that can't be read is noticed before the log is.
fn explain_slip(file: &str) -> Result<(), String> {
    let slip = fs::read(file).map_err(|error| format!("{file}: {error}"))?;
    let register = register_at_the_end()?;
    output(explain::explain_slip(&register, &slip).as_bytes())
}

/// The register that the log or text leads to.
fn register_at_the_end() -> Result<Register, String> {
    let log = text::given(&input()?)?.log;
    Ok(run_with(&log, None).1)
}

/// The number of an office or a block, whether there is one or not.
fn byte(word: &str) -> Result<u8, String> {
    let digits = word.bytes().all(|byte| byte.is_ascii_digit());
    match word.parse() {
        Ok(number) if digits => Ok(number),
        _ => Err(format!(
            "slip write takes numbers from 0 to 255, not `{word}`"
        )),
    }
}

fn input() -> Result<Vec<u8>, String> {
    let mut bytes = Vec::new();
    match io::stdin().lock().read_to_end(&mut bytes) {
        Ok(_) => Ok(bytes),
        Err(error) => Err(format!("standard input: {error}")),
    }
}

fn output(bytes: &[u8]) -> Result<(), String> {
    let mut out = io::stdout().lock();
    let written = out.write_all(bytes).and_then(|()| out.flush());
    written.map_err(|error| format!("standard output: {error}"))
}
