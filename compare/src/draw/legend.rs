//! The legend below the tree: each shape with its meaning.

use super::{Frame, Label, Seen};

/// What a line of the legend shows.
#[derive(Clone, Copy, Debug, PartialEq, Eq)]
pub enum Shape {
    Plain,
    Notarised,
    Longest,
    Final,
    Tag,
    Line,
    Backward,
}

#[derive(Clone, Debug, PartialEq, Eq)]
pub struct Sample {
    pub shape: Shape,
    pub frame: Frame,
    pub label: Label,
}

const SIZE: i32 = 13;
const WIDTH: i32 = 52;
const HEIGHT: i32 = 32;
const BETWEEN: i32 = 10;
const ROW: i32 = 44;
const APART: i32 = 28;

fn meanings(seen: &Seen) -> [(Shape, String); 7] {
    let (needed, n, office) = (seen.needed, seen.n, seen.office.0);
    let enough = format!("notarised: signed by {needed} of {n} or more");
    let tag = "final block of other offices".to_string();
    let back = "epoch not above the parent's: no valid chain".to_string();
    [
        (Shape::Plain, "not notarised".to_string()),
        (Shape::Notarised, enough),
        (Shape::Longest, "bar: on a longest chain".to_string()),
        (Shape::Final, format!("final for office {office}")),
        (Shape::Tag, tag),
        (Shape::Line, "to the parent".to_string()),
        (Shape::Backward, back),
    ]
}

/// The legend at this place, in rows that are not wider than `width` where that
/// can be.
pub fn legend(seen: &Seen, left: i32, top: i32, width: i32) -> Vec<Sample> {
    let (mut x, mut y) = (left, top);
    let mut samples = Vec::new();
    for (shape, text) in meanings(seen) {
        let sample = sample(shape, text, x, y);
        let right = sample.label.frame().right();
        if right <= left + width || x == left {
            x = right + APART;
            samples.push(sample);
        } else {
            y += ROW;
            let moved = self::sample(shape, sample.label.text, left, y);
            x = moved.label.frame().right() + APART;
            samples.push(moved);
        }
    }
    samples
}

fn sample(shape: Shape, text: String, x: i32, y: i32) -> Sample {
    let frame = Frame {
        x,
        y,
        width: WIDTH,
        height: HEIGHT,
    };
    let label = Label::new(frame.right() + BETWEEN, y + HEIGHT / 2 + 5, SIZE, text);
    Sample {
        shape,
        frame,
        label,
    }
}
