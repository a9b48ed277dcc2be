//! Points, frames and text in pixels. Text is set in a monospace font, whose
//! characters take 0.6 of its size or a little more.

#[derive(Clone, Copy, Debug, PartialEq, Eq)]
pub struct Point {
    pub x: i32,
    pub y: i32,
}

/// From its left top corner to the right and down.
#[derive(Clone, Copy, Debug, PartialEq, Eq)]
pub struct Frame {
    pub x: i32,
    pub y: i32,
    pub width: i32,
    pub height: i32,
}

impl Frame {
    pub fn right(&self) -> i32 {
        self.x + self.width
    }

    pub fn bottom(&self) -> i32 {
        self.y + self.height
    }

    /// Whether two frames share more than an edge.
    pub fn overlaps(&self, other: &Frame) -> bool {
        let across = self.x < other.right() && other.x < self.right();
        across && self.y < other.bottom() && other.y < self.bottom()
    }

    pub fn contains(&self, other: &Frame) -> bool {
        let across = self.x <= other.x && other.right() <= self.right();
        across && self.y <= other.y && other.bottom() <= self.bottom()
    }

    /// The frame made smaller on each side.
    pub fn inset(&self, by: i32) -> Frame {
        Frame {
            x: self.x + by,
            y: self.y + by,
            width: self.width - 2 * by,
            height: self.height - 2 * by,
        }
    }
}

/// Which end of a text its place is.
#[derive(Clone, Copy, Debug, PartialEq, Eq)]
pub enum Anchor {
    Start,
    Middle,
}

/// A line of text; its place is on the base line.
#[derive(Clone, Debug, PartialEq, Eq)]
pub struct Label {
    pub at: Point,
    pub text: String,
    pub size: i32,
    pub bold: bool,
    /// Written white on black.
    pub reversed: bool,
    pub anchor: Anchor,
}

impl Label {
    pub fn new(x: i32, y: i32, size: i32, text: String) -> Label {
        Label {
            at: Point { x, y },
            text,
            size,
            bold: false,
            reversed: false,
            anchor: Anchor::Start,
        }
    }

    pub fn bold(self) -> Label {
        Label { bold: true, ..self }
    }

    pub fn centred(self) -> Label {
        let anchor = Anchor::Middle;
        Label { anchor, ..self }
    }

    /// What the text takes at most: a quarter of its size hangs below the base
    /// line.
    pub fn frame(&self) -> Frame {
        let width = text_width(self.text.chars().count(), self.size);
        let x = match self.anchor {
            Anchor::Start => self.at.x,
            Anchor::Middle => self.at.x - width / 2,
        };
        Frame {
            x,
            y: self.at.y - self.size,
            width,
            height: self.size + self.size / 4,
        }
    }
}

/// The width of so many characters, rounded up, with a little to spare.
pub fn text_width(characters: usize, size: i32) -> i32 {
    (characters as i32 * size * 62 + 99) / 100
}
