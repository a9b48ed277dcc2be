//! The lessons of examples/lessons: each shows one mistake of a student, and
//! what its comments say is what the right and the wrong checker report. And the
//! tool's comparison of the two, as it is called.

mod called;
mod further;

use super::forks::chain;
use skovarnek_compare::check;
use skovarnek_compare::mistaken::{MISTAKES, difference, named, parted};
use skovarnek_compare::packed::{Log, write_log};
use skovarnek_compare::register::{Block, Mistake, Office, Register};
use skovarnek_compare::report::{check_with, run_with};
use skovarnek_compare::text;
use std::collections::BTreeSet;
use std::fs;
use std::path::{Path, PathBuf};

/// No lesson has more steps.
const MOST_STEPS: usize = 26;

struct Lesson {
    path: PathBuf,
    text: String,
    mistake: Mistake,
    log: Log,
}

/// A file of the repository.
fn at(path: &str) -> PathBuf {
    Path::new(env!("CARGO_MANIFEST_DIR")).join("..").join(path)
}

fn lesson(path: PathBuf) -> Lesson {
    let text = fs::read_to_string(&path).expect("a text");
    let name = text
        .lines()
        .find_map(|line| line.strip_prefix("# Mistake: "));
    let mistake = name.and_then(named);
    let log = text::parse(&text).unwrap_or_else(|bad| panic!("{path:?}: {bad}"));
    Lesson {
        mistake: mistake.unwrap_or_else(|| panic!("{path:?}: {name:?}")),
        path,
        text,
        log,
    }
}

fn lessons() -> Vec<Lesson> {
    let files = fs::read_dir(at("examples/lessons")).expect("a folder");
    let paths = files.map(|file| file.expect("a file").path());
    let texts = paths.filter(|path| path.extension().is_some_and(|end| end == "txt"));
    texts.map(lesson).collect()
}

impl Lesson {
    /// What is stored beside the text.
    fn beside(&self, end: &str) -> String {
        let path = self.path.with_extension(end);
        fs::read_to_string(&path).unwrap_or_else(|fault| panic!("{path:?}: {fault}"))
    }

    /// The rest of the one comment that starts so.
    fn said(&self, start: &str) -> Option<&str> {
        let start = format!("# {start}");
        let mut said = self
            .text
            .lines()
            .filter_map(|line| line.strip_prefix(&start));
        let first = said.next();
        assert_eq!(said.next(), None, "{:?}: `{start}` twice", self.path);
        first
    }

    fn wrong(&self) -> (String, Register) {
        let (report, register) = run_with(&self.log, Some(self.mistake));
        (words(&report), register)
    }
}

fn words(bytes: &[u8]) -> String {
    String::from_utf8_lossy(bytes).into_owned()
}

/// The numbers in a sentence.
fn numbers(sentence: &str) -> Vec<u8> {
    let words = sentence.split(|c: char| !c.is_ascii_digit());
    words.filter_map(|word| word.parse().ok()).collect()
}

/// Without any one lesson some mistake would have none.
#[test]
fn each_mistake_has_one_lesson() {
    let lessons = lessons();
    assert_eq!(lessons.len(), MISTAKES.len());
    for (mistake, name, ..) in MISTAKES {
        let about = lessons.iter().filter(|lesson| lesson.mistake == mistake);
        assert_eq!(about.count(), 1, "{name}");
    }
}

/// Beside the texts stand their reports and nothing else.
#[test]
fn files() {
    let files = fs::read_dir(at("examples/lessons")).expect("a folder");
    let found: BTreeSet<PathBuf> = files.map(|file| file.expect("a file").path()).collect();
    let ends = ["txt", "report", "wrong"];
    let of_lesson = |lesson: &Lesson| ends.map(|end| lesson.path.with_extension(end));
    let wanted: BTreeSet<PathBuf> = lessons().iter().flat_map(of_lesson).collect();
    assert_eq!(found, wanted);
}

#[test]
fn short_and_said_in_full() {
    for lesson in lessons() {
        let path = &lesson.path;
        assert!(lesson.log.steps.len() <= MOST_STEPS, "{path:?}");
        for start in [
            "Lesson: ",
            "The student thinks: ",
            "The rules say: ",
            "The deeds: ",
        ] {
            assert!(lesson.said(start).is_some(), "{path:?}: {start}");
        }
        let long = lesson.text.lines().find(|line| line.len() > 160);
        assert_eq!(long, None, "{path:?}");
    }
}

/// From this checker, and where it is linked from the proved one: as a library
/// and as a program.
#[test]
fn right_reports_as_stored() {
    for lesson in lessons() {
        let path = &lesson.path;
        let stored = lesson.beside("report");
        let packed = write_log(&lesson.log.opening, &lesson.log.steps);
        assert_eq!(words(&check(&packed)), stored, "{path:?}");
        #[cfg(feature = "proved")]
        {
            let proved = skovarnek_compare::proved::check(&packed);
            assert_eq!(words(&proved), stored, "{path:?}");
            let printed = super::program::printed(&packed);
            assert_eq!(words(&printed), stored, "{path:?}");
        }
    }
}

#[test]
fn wrong_reports_as_stored() {
    for lesson in lessons() {
        let path = &lesson.path;
        assert_eq!(lesson.wrong().0, lesson.beside("wrong"), "{path:?}");
    }
}

/// The comment names both lines, and the step of it among those that show the
/// mistake.
#[test]
fn they_differ_where_the_comment_says() {
    for lesson in lessons() {
        let path = &lesson.path;
        let said = lesson.said("The wrong checker says ").expect("both lines");
        let found = difference(&lesson.log, lesson.mistake).expect("a difference");
        let (wrong, right) = (found.wrong, found.right);
        let wanted = format!("`{wrong}` where the right one says `{right}`.");
        assert_eq!(said, wanted, "{path:?}");
        let shown = lesson.said("Step").expect("which step shows it");
        let steps = shown.split(" show").next().expect("the steps");
        let step = found.index + 1;
        assert!(numbers(steps).contains(&(step as u8)), "{path:?}: {shown}");
    }
}

/// Of no other wrong checker does a lesson have the same report, nor of the
/// right one.
#[test]
fn each_lesson_tells_its_mistake_from_all_others() {
    for lesson in lessons() {
        let wrong = check_with(&lesson.log, Some(lesson.mistake));
        assert_ne!(check_with(&lesson.log, None), wrong, "{:?}", lesson.path);
        for (mistake, name, ..) in MISTAKES {
            let same = check_with(&lesson.log, Some(mistake)) == wrong;
            assert_eq!(same, mistake == lesson.mistake, "{:?}: {name}", lesson.path);
        }
    }
}

/// Whether neither block is on the other's chain.
fn apart(register: &Register, one: Block, other: Block) -> bool {
    let (one, other) = (chain(register, one), chain(register, other));
    !one.starts_with(&other) && !other.starts_with(&one)
}

/// One of three sentences says what the wrong checker lets happen: that two
/// offices part; that one holds a block and another has a chain as long without
/// it; or that no log can bring that.
#[test]
fn final_chains_part_where_the_comment_says() {
    let mut parting = 0;
    for lesson in lessons() {
        let path = &lesson.path;
        let (_, register) = lesson.wrong();
        let part = lesson.said("Two offices part: ");
        let breaks = lesson.said("Agreement breaks: ");
        let never = lesson.said("No two offices part, in no log: ");
        let said = [part, breaks, never].into_iter().flatten().count();
        assert_eq!(said, 1, "{path:?}");
        assert_eq!(parted(&register).is_some(), part.is_some(), "{path:?}");
        if let Some(sentence) = part {
            assert_parted(&register, &numbers(sentence));
            parting += 1;
        }
        if let Some(sentence) = breaks {
            assert_broken(&register, &numbers(sentence));
        }
        assert_eq!(parted(&run_with(&lesson.log, None).1), None);
    }
    assert!(parting >= 2);
}

/// Office, its final block, another office, its final block.
fn assert_parted(register: &Register, said: &[u8]) {
    let &[one, b, other, c] = said else {
        panic!("{said:?}");
    };
    assert_eq!(register.final_block(Office(one)), Block(b));
    assert_eq!(register.final_block(Office(other)), Block(c));
    assert!(apart(register, Block(b), Block(c)));
}

/// Office, its final block, another office, a block whose chain is notarised
/// for it.
fn assert_broken(register: &Register, said: &[u8]) {
    let &[one, b, other, c] = said else {
        panic!("{said:?}");
    };
    assert_eq!(register.final_block(Office(one)), Block(b));
    assert!(register.view(Office(other)).is_notarised_chain(Block(c)));
    assert!(register.chain_length(Block(c)) >= register.chain_length(Block(b)));
    assert!(apart(register, Block(b), Block(c)));
}

/// Where a lesson says that no log can bring it, no generated log does; by other
/// mistakes some of them do.
#[test]
fn generated_logs_part_only_by_the_mistakes_that_say_so() {
    let never = |lesson: &Lesson| lesson.said("No two offices part, in no log: ").is_some();
    let safe: Vec<Mistake> = lessons()
        .iter()
        .filter(|l| never(l))
        .map(|l| l.mistake)
        .collect();
    assert_eq!(safe.len(), 4);
    let mut found = 0;
    for seed in super::seeds().take(400) {
        let log = skovarnek_compare::generate::log(seed);
        let Ok(log) = skovarnek_compare::packed::read_log(&log) else {
            continue;
        };
        for (mistake, name, ..) in MISTAKES {
            let part = parted(&run_with(&log, Some(mistake)).1).is_some();
            assert!(!(part && safe.contains(&mistake)), "seed {seed}: {name}");
            found += usize::from(part);
        }
    }
    assert!(found > 5, "{found}");
}
