//! A picture of the block tree as an SVG: epochs from left to right, forks on
//! lanes of their own, each block as one office sees it.
//!
//! A log and a choice give what is seen ([`seen`]), that gives places in pixels
//! ([`layout`]), and those give the SVG ([`svg`]). All numbers are whole, so the
//! same log gives the same bytes everywhere.

mod boxes;
mod choice;
mod edges;
mod frame;
mod grid;
mod layout;
mod legend;
mod seen;
mod shapes;
mod svg;
mod tracks;

pub use boxes::BlockBox;
pub use choice::{Choice, choose};
pub use edges::{Course, Edge};
pub use frame::{Anchor, Frame, Label, Point};
pub use grid::{Grid, Spot};
pub use layout::{Heading, Picture, layout};
pub use legend::{Sample, Shape};
pub use seen::{Seen, SeenBlock, seen};
pub use svg::svg;

use crate::text;

/// The picture of a log, packed or as text.
pub fn draw(choice: &Choice, bytes: &[u8]) -> Result<String, String> {
    if bytes.is_empty() {
        return Err(text::NO_LOG.to_string());
    }
    let given = text::given(bytes)?;
    let seen = seen(&given.log, choice)?;
    Ok(svg(&layout(&seen)))
}
