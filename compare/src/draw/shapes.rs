//! Outlines: what tells blocks apart is their shape, and colour only repeats it.

use super::Frame;
use std::fmt::Write;

/// A final block has its corners cut off by so much, in the legend by less.
fn cut(frame: &Frame) -> i32 {
    14.min(frame.height / 4)
}

/// The second outline of a notarised block runs so far inside the first.
const INSIDE: i32 = 4;

/// How a block is drawn.
#[derive(Clone, Copy, Debug, PartialEq, Eq)]
pub struct Look {
    pub notarised: bool,
    pub longest: bool,
    pub is_final: bool,
}

/// The outline of a block, with the second one and the bar if it has them.
pub fn put_block(svg: &mut String, frame: &Frame, look: Look) {
    let fill = match (look.is_final, look.notarised) {
        (true, _) => "#dff0dc",
        (_, true) => "#e3edf9",
        _ => "#ffffff",
    };
    let cut = cut(frame);
    put_outline(svg, frame, look.is_final.then_some(cut), fill);
    if look.notarised {
        let inner = frame.inset(INSIDE);
        put_outline(svg, &inner, look.is_final.then_some(cut - 2), "none");
    }
    if look.longest {
        let bar = Frame {
            x: frame.x + 9,
            y: frame.y + cut,
            width: 6,
            height: frame.height - 2 * cut,
        };
        put_rect(svg, &bar, "fill=\"#b34700\"");
    }
}

fn put_outline(svg: &mut String, frame: &Frame, cut: Option<i32>, fill: &str) {
    let style = format!("fill=\"{fill}\" stroke=\"#000000\" stroke-width=\"1\"");
    let Some(cut) = cut else {
        return put_rect(svg, frame, &style);
    };
    let (left, top, right, bottom) = (frame.x, frame.y, frame.right(), frame.bottom());
    let corners = [
        (left + cut, top),
        (right - cut, top),
        (right, top + cut),
        (right, bottom - cut),
        (right - cut, bottom),
        (left + cut, bottom),
        (left, bottom - cut),
        (left, top + cut),
    ];
    let corners: Vec<String> = corners.iter().map(|(x, y)| format!("{x},{y}")).collect();
    let corners = corners.join(" ");
    writeln!(svg, "<polygon points=\"{corners}\" {style}/>").expect("a string takes all");
}

pub fn put_rect(svg: &mut String, frame: &Frame, style: &str) {
    let Frame {
        x,
        y,
        width,
        height,
    } = frame;
    writeln!(
        svg,
        "<rect x=\"{x}\" y=\"{y}\" width=\"{width}\" height=\"{height}\" {style}/>"
    )
    .expect("a string takes all");
}

/// Around the offices for which a block is final.
pub fn put_tag(svg: &mut String, frame: &Frame) {
    let style = "rx=\"6\" fill=\"#ffffff\" stroke=\"#000000\" stroke-dasharray=\"2 2\"";
    put_rect(svg, frame, style);
}

/// Behind the word `final`.
pub fn put_seal(svg: &mut String, frame: &Frame) {
    put_rect(svg, frame, "fill=\"#000000\"");
}
