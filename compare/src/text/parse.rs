//! Text to log. A slip of the pen gets the line's number and what was expected.

use super::slips::{OPENING_WORDS, meant_kind, meant_step, step_words};
use super::{KIND, PROPOSAL, VOTE, WORDS};
use crate::packed::{LONGEST_LOG, Log, WIDTHS};
use crate::packed::{opening_bits, step_bits};
use crate::refusal::{Refusal, ensure};
use crate::register::{Kind, MOST_FIELDS, MOST_OFFICES, Office, Opening, STEP_KINDS, Step};
use crate::register::{check_length, check_third};
use std::fmt;

/// What is wrong with a text, and in which line (from 1).
#[derive(Clone, Debug, PartialEq, Eq)]
pub struct BadText {
    pub line: usize,
    pub message: String,
    /// The number that a log gets that says the same, if one can.
    pub refusal: Option<Refusal>,
}

impl BadText {
    pub(crate) fn new(line: usize, message: &str) -> BadText {
        BadText {
            line,
            message: message.to_string(),
            refusal: None,
        }
    }
}

impl fmt::Display for BadText {
    fn fmt(&self, f: &mut fmt::Formatter) -> fmt::Result {
        write!(f, "line {}: {}", self.line, self.message)
    }
}

/// An opening has a line for each of its words.
pub(super) const OPENING_LINES: usize = OPENING_WORDS.len();

/// A line that says something: its number and its words.
struct Line<'a> {
    number: usize,
    word: &'a str,
    fields: Vec<&'a str>,
}

impl Line<'_> {
    fn bad<T>(&self, message: String) -> Result<T, BadText> {
        Err(BadText::new(self.number, &message))
    }

    /// What a log would be refused for, and what is so here.
    fn or_refused<T>(&self, result: Result<T, Refusal>, here: &str) -> Result<T, BadText> {
        result.map_err(|refusal| BadText {
            line: self.number,
            message: format!("refusal {}, {}: {here}", refusal.number(), refusal.word()),
            refusal: Some(refusal),
        })
    }

    /// A number of at most so much.
    fn number(&self, name: &str, field: &str, most: u16) -> Result<u16, BadText> {
        match as_number(field) {
            Some(number) if number <= u64::from(most) => Ok(number as u16),
            _ => self.no_number(name, field, most),
        }
    }

    fn no_number<T>(&self, name: &str, field: &str, most: u16) -> Result<T, BadText> {
        let spaces = match field.contains([',', ';']) {
            true => "; numbers are parted by spaces",
            false => "",
        };
        self.bad(format!(
            "{name} `{field}` isn't a number from 0 to {most}{spaces}"
        ))
    }

    /// The offices of an opening's line, which may be greater than an office's
    /// number can be: as many as there are of them would say so.
    fn offices(&self, n: u8) -> Result<Vec<u64>, BadText> {
        let office = |field: &&str| match as_number(field) {
            Some(number) => Ok(number),
            None => self.no_number("office", field, (n - 1).into()),
        };
        self.fields.iter().map(office).collect()
    }
}

/// A number in digits; one that is beyond all bounds is the greatest.
fn as_number(field: &str) -> Option<u64> {
    let digits = !field.is_empty() && field.bytes().all(|byte| byte.is_ascii_digit());
    digits.then(|| field.parse().unwrap_or(u64::MAX))
}

/// The log that a text describes.
pub fn parse(text: &str) -> Result<Log, BadText> {
    let text = text.strip_prefix('\u{feff}').unwrap_or(text);
    let mut lines = text.lines().enumerate().filter_map(read_line);
    let after = text.lines().count() + 1;
    let opening = parse_opening(&mut lines, after)?;
    let mut steps = Vec::new();
    // The end takes 4 bits of what a log may have.
    let mut bits = opening_bits(&opening) + 4;
    for line in lines {
        let step = parse_step(&line)?;
        bits += step_bits(&step);
        let fits = ensure(bits <= 8 * LONGEST_LOG, Refusal::LongLog);
        line.or_refused(fits, "the log gets longer than 65,536 bytes")?;
        steps.push(step);
    }
    Ok(Log { opening, steps })
}

/// What a line says, and what stands behind its `#`.
pub(super) fn words_and_comment(line: &str) -> (&str, Option<&str>) {
    match line.split_once('#') {
        Some((words, comment)) => (words, Some(comment)),
        None => (line, None),
    }
}

fn read_line((index, line): (usize, &str)) -> Option<Line<'_>> {
    let (said, _) = words_and_comment(line);
    let mut words = said.split_whitespace();
    Some(Line {
        number: index + 1,
        word: words.next()?,
        fields: words.collect(),
    })
}

fn parse_opening<'a>(
    lines: &mut impl Iterator<Item = Line<'a>>,
    after: usize,
) -> Result<Opening, BadText> {
    let [offices, trusted, leaders] = OPENING_WORDS;
    let n = parse_count(&wanted(lines, offices, after)?)?;
    let trust = parse_trust(&wanted(lines, trusted, after)?, n)?;
    let schedule = parse_schedule(&wanted(lines, leaders, after)?, n)?;
    Ok(Opening { n, trust, schedule })
}

/// The next line, which has to start with this word.
fn wanted<'a>(
    lines: &mut impl Iterator<Item = Line<'a>>,
    word: &str,
    after: usize,
) -> Result<Line<'a>, BadText> {
    let order = OPENING_WORDS.join(", ");
    match lines.next() {
        Some(line) if line.word == word => Ok(line),
        Some(line) => line.bad(format!(
            "`{word}` is due here, not `{}`: a text starts with {order}",
            line.word
        )),
        None => Err(BadText::new(
            after,
            &format!("the text ends where `{word}` is due"),
        )),
    }
}

fn parse_count(line: &Line) -> Result<u8, BadText> {
    let [field] = line.fields[..] else {
        let found = line.fields.len();
        return line.bad(format!("offices takes one number, 1 to 32, not {found}"));
    };
    let Some(n) = as_number(field) else {
        return line.bad(format!("offices `{field}` isn't a number from 1 to 32"));
    };
    let right = (1..=MOST_OFFICES.into()).contains(&n);
    let here = format!("{field} offices, but there can be 1 to 32");
    line.or_refused(ensure(right, Refusal::Count), &here)?;
    Ok(n as u8)
}

/// What is said of an office that the opening does not have.
fn stray(office: u64, n: u8) -> String {
    match n {
        1 => format!("office {office}, but there is 1 office: 0"),
        _ => format!("office {office}, but there are {n} offices: 0 to {}", n - 1),
    }
}

fn parse_trust(line: &Line, n: u8) -> Result<u32, BadText> {
    let mut trust: u32 = 0;
    for office in line.offices(n)? {
        if office >= n.into() {
            return line.bad(stray(office, n));
        }
        if trust >> office & 1 == 1 {
            return line.bad(format!("office {office} stands here twice"));
        }
        trust |= 1 << office;
    }
    let untrusted = u32::from(n) - trust.count_ones();
    let here = format!(
        "{untrusted} of {n} offices are not trusted here; at most {} may be so",
        (n - 1) / 3
    );
    let schedule = Vec::new();
    line.or_refused(check_third(&Opening { n, trust, schedule }), &here)?;
    Ok(trust)
}

fn parse_schedule(line: &Line, n: u8) -> Result<Vec<Office>, BadText> {
    let leaders = line.offices(n)?;
    let found = leaders.len();
    let here = format!("{found} leaders, but there can be 1 to 256, one for each epoch");
    line.or_refused(check_length(found), &here)?;
    for &leader in &leaders {
        let right = ensure(leader < n.into(), Refusal::StrayLeader);
        line.or_refused(right, &stray(leader, n))?;
    }
    Ok(leaders.iter().map(|&leader| Office(leader as u8)).collect())
}

fn parse_step(line: &Line) -> Result<Step, BadText> {
    let Some(kind) = (1..=STEP_KINDS).find(|&kind| WORDS[usize::from(kind)].0 == line.word) else {
        return no_step(line);
    };
    let (_, names) = WORDS[usize::from(kind)];
    let mut fields = [0; MOST_FIELDS];
    for (place, &width) in WIDTHS[usize::from(kind)].iter().enumerate() {
        let Some(field) = line.fields.get(place) else {
            return too_few(line, names);
        };
        fields[place] = parse_field(line, names[place], field, width)?;
    }
    match line.fields.len() > names.len() {
        true => too_many(line, names),
        false => Ok(Step::from_fields(kind, fields)),
    }
}

fn no_step<T>(line: &Line) -> Result<T, BadText> {
    let word = line.word;
    if OPENING_WORDS.contains(&word) {
        return line.bad(format!(
            "`{word}` stands in the opening, once, and no step has this word"
        ));
    }
    line.bad(match meant_step(word) {
        Some(meant) => format!("no step `{word}`; did you mean `{meant}`?"),
        None => {
            let words: Vec<&str> = step_words().collect();
            format!("no step `{word}`; the steps are {}", words.join(", "))
        }
    })
}

/// Names of fields with their articles.
fn with_articles(names: &[&str]) -> String {
    let one = |name: &&str| match name.starts_with(['o', 'e']) {
        true => format!("an {name}"),
        false => format!("a {name}"),
    };
    names.iter().map(one).collect::<Vec<_>>().join(" and ")
}

fn too_few<T>(line: &Line, names: &[&str]) -> Result<T, BadText> {
    let (there, missing) = names.split_at(line.fields.len());
    let missing = with_articles(missing);
    let after = match (there.last(), line.fields.last()) {
        (Some(name), Some(field)) => format!(" after {name} {field}"),
        _ => String::new(),
    };
    line.bad(format!("{} needs {missing}{after}", line.word))
}

fn too_many<T>(line: &Line, names: &[&str]) -> Result<T, BadText> {
    let word = line.word;
    let more = line.fields[names.len()..].join(" ");
    line.bad(match names {
        [] => format!("{word} takes no number, so `{more}` is too much"),
        _ => format!(
            "{word} takes {}, so `{more}` is too much",
            with_articles(names)
        ),
    })
}

fn parse_field(line: &Line, name: &str, field: &str, width: usize) -> Result<u16, BadText> {
    match (name, field) {
        (KIND, PROPOSAL) => Ok(Kind::Proposal.number()),
        (KIND, VOTE) => Ok(Kind::Vote.number()),
        (KIND, _) => line.bad(match meant_kind(field) {
            Some(meant) => format!("no kind `{field}`; did you mean `{meant}`?"),
            None => format!("kind `{field}` is neither {PROPOSAL} nor {VOTE}"),
        }),
        _ => line.number(name, field, u16::MAX >> (16 - width)),
    }
}
