//! How the explained report is laid out, for terminals of 110 columns.

use std::fmt::Write;

const WIDTH: usize = 110;
/// The column at which a note starts.
const NOTE: usize = 29;

/// The lines so far.
pub struct Rows {
    text: String,
}

impl Rows {
    pub fn new() -> Rows {
        let text = String::new();
        Rows { text }
    }

    pub fn into_text(self) -> String {
        self.text
    }

    /// A heading, with an empty line before it.
    pub fn heading(&mut self, heading: &str) {
        if !self.text.is_empty() {
            self.text.push('\n');
        }
        self.text.push_str(heading);
        self.text.push('\n');
    }

    pub fn comments(&mut self, comments: &[String]) {
        for comment in comments {
            self.text.push_str(format!("# {comment}").trim_end());
            self.text.push('\n');
        }
    }

    /// A line of the report on a step, the step's text and the notes below each
    /// other.
    pub fn step(&mut self, line: &[u8], step: &str, notes: &[String]) {
        let line = String::from_utf8_lossy(line);
        let mut start = format!("{:<10} {step:<17} ", line.trim_end());
        for note in notes {
            self.note(&start, note);
            start = " ".repeat(NOTE);
        }
    }

    /// A line of the report on an office, and its note.
    pub fn office(&mut self, line: &[u8], note: &str) {
        let line = String::from_utf8_lossy(line);
        self.noted(line.trim_end(), note);
    }

    /// A line and its note.
    pub fn noted(&mut self, line: &str, note: &str) {
        self.note(&format!("{line:<NOTE$}"), note);
    }

    /// A note, broken between words where the line is full; what follows stands
    /// two columns further in.
    fn note(&mut self, start: &str, note: &str) {
        let mut line = start.to_string();
        let mut fresh = true;
        for word in note.split(' ') {
            if !fresh && line.len() + 1 + word.len() > WIDTH {
                self.line(&line);
                line = " ".repeat(NOTE + 2);
                fresh = true;
            }
            if !fresh {
                line.push(' ');
            }
            line.push_str(word);
            fresh = false;
        }
        self.line(&line);
    }

    fn line(&mut self, line: &str) {
        writeln!(self.text, "{line}").expect("a string takes all");
    }
}
