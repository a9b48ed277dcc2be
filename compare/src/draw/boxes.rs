//! The box of a block: its outline's frame and the text in it.

use super::frame::text_width;
use super::{Anchor, Frame, Label, SeenBlock};
use crate::register::{GENESIS, Office};

/// All boxes have this width; the height depends on the text.
pub const WIDTH: i32 = 176;
/// So far below a box's top a line meets it.
pub const PORT: i32 = 48;

const TITLE_SIZE: i32 = 15;
const SIZE: i32 = 13;
const SMALL_SIZE: i32 = 11;
const LINE: i32 = 18;
const SMALL_LINE: i32 = 15;
/// Left of the text there is room for the bar of a longest chain.
const TEXT_LEFT: i32 = 24;
const TEXT_TOP: i32 = 24;
/// The most characters of a line that lists offices.
const SMALL_CHARACTERS: usize = 19;

#[derive(Clone, Debug, PartialEq, Eq)]
pub struct BlockBox {
    pub block: SeenBlock,
    pub frame: Frame,
    pub labels: Vec<Label>,
    /// Around the word `final`.
    pub seal: Option<Frame>,
    /// Around the lines that name other offices.
    pub tag: Option<Frame>,
}

/// The box of a block with its corner at this place.
pub fn block_box(block: &SeenBlock, n: u8, x: i32, y: i32) -> BlockBox {
    let seal = block.is_final.then(|| seal(x, y));
    let mut labels: Vec<Label> = seal.iter().map(seal_label).collect();
    let left = x + TEXT_LEFT;
    let mut base = y + TEXT_TOP;
    let title = format!("block {}", block.number.0);
    labels.push(Label::new(left, base, TITLE_SIZE, title).bold());
    for line in lines(block, n) {
        base += LINE;
        labels.push(Label::new(left, base, SIZE, line));
    }
    for line in office_lines("by", &block.signers) {
        base += SMALL_LINE;
        labels.push(Label::new(left, base, SMALL_SIZE, line));
    }
    let others = office_lines("final for", &block.final_for);
    let tag = tag(left, base, &others);
    base += 6;
    for line in others {
        base += SMALL_LINE;
        labels.push(Label::new(left, base, SMALL_SIZE, line));
    }
    let bottom = tag.map_or(base + 8, |tag| tag.bottom() + 12);
    BlockBox {
        block: block.clone(),
        frame: Frame {
            x,
            y,
            width: WIDTH,
            height: bottom - y,
        },
        labels,
        seal,
        tag,
    }
}

/// Around so many lines below this base line.
fn tag(left: i32, base: i32, lines: &[String]) -> Option<Frame> {
    let longest = lines.iter().map(String::len).max()?;
    Some(Frame {
        x: left - 5,
        y: base + 7,
        width: text_width(longest, SMALL_SIZE) + 10,
        height: SMALL_LINE * lines.len() as i32 + 5,
    })
}

/// In the right top corner.
fn seal(x: i32, y: i32) -> Frame {
    let width = text_width("final".len(), SMALL_SIZE) + 10;
    Frame {
        x: x + WIDTH - 16 - width,
        y: y + 10,
        width,
        height: 18,
    }
}

fn seal_label(seal: &Frame) -> Label {
    let word = Label::new(
        seal.x + seal.width / 2,
        seal.y + 13,
        SMALL_SIZE,
        "final".into(),
    );
    Label {
        bold: true,
        reversed: true,
        anchor: Anchor::Middle,
        ..word
    }
}

/// Who leads, the payload and the signers. Nobody signed genesis.
fn lines(block: &SeenBlock, n: u8) -> [String; 3] {
    if block.number == GENESIS {
        let none = "unsigned, counts".to_string();
        return ["genesis".to_string(), none, "as notarised".to_string()];
    }
    let leader = leader_text(block.leader);
    let payload = format!("payload {}", block.payload);
    [leader, payload, format!("signers {} of {n}", block.count)]
}

pub fn leader_text(leader: Option<Office>) -> String {
    match leader {
        Some(office) => format!("leader {}", office.0),
        None => "no leader".to_string(),
    }
}

/// A word and the offices, in lines that are short enough; none for no office.
fn office_lines(start: &str, offices: &[Office]) -> Vec<String> {
    if offices.is_empty() {
        return Vec::new();
    }
    let mut lines = vec![start.to_string()];
    for word in office_list(offices).split(' ') {
        let line = lines.last_mut().expect("a first line");
        match line.len() + 1 + word.len() <= SMALL_CHARACTERS {
            true => line.extend([" ", word]),
            false => lines.push(word.to_string()),
        }
    }
    lines
}

/// Ascending offices, as in `0-3, 5`.
pub fn office_list(offices: &[Office]) -> String {
    let runs = offices.chunk_by(|a, b| a.0 + 1 == b.0);
    let run = |run: &[Office]| match run {
        [one] => one.0.to_string(),
        [one, other] => format!("{}, {}", one.0, other.0),
        [first, .., last] => format!("{}-{}", first.0, last.0),
        [] => String::new(),
    };
    runs.map(run).collect::<Vec<String>>().join(", ")
}
