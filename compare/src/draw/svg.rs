//! A picture as SVG. All text is made of plain words and numbers, so nothing
//! needs to be escaped.

use super::legend::Shape;
use super::shapes::{Look, put_block, put_rect, put_seal, put_tag};
use super::{Anchor, BlockBox, Course, Edge, Frame, Heading, Label, Picture, Point, Sample};
use super::{SeenBlock, boxes::leader_text, boxes::office_list};
use crate::register::GENESIS;
use std::fmt::Write;

const FONTS: &str = "DejaVu Sans Mono, Liberation Mono, Menlo, Consolas, Courier New, monospace";

/// Writes onto a string, which takes all.
macro_rules! put {
    ($svg:expr, $($what:tt)*) => {
        writeln!($svg, $($what)*).expect("a string takes all")
    };
}

pub fn svg(picture: &Picture) -> String {
    let mut svg = String::new();
    put_head(&mut svg, picture);
    for heading in &picture.headings {
        put_heading(&mut svg, heading);
    }
    for caption in &picture.captions {
        put_label(&mut svg, caption);
    }
    for edge in in_order(&picture.edges) {
        put_line(&mut svg, &edge.points, edge.course, edge.longest);
    }
    for edge in &picture.edges {
        put_arrow(&mut svg, edge.points[0]);
    }
    for Point { x, y } in &picture.joints {
        put!(
            svg,
            "<circle cx=\"{x}\" cy=\"{y}\" r=\"4\" fill=\"#000000\"/>"
        );
    }
    for one in &picture.boxes {
        put_box(&mut svg, one);
    }
    for sample in &picture.legend {
        put_sample(&mut svg, sample);
    }
    svg.push_str("</svg>\n");
    svg
}

fn put_head(svg: &mut String, picture: &Picture) {
    let (width, height) = (picture.width, picture.height);
    put!(
        svg,
        "<svg xmlns=\"http://www.w3.org/2000/svg\" width=\"{width}\" height=\"{height}\" \
         viewBox=\"0 0 {width} {height}\" role=\"img\" aria-labelledby=\"title desc\" \
         font-family=\"{FONTS}\">"
    );
    put!(svg, "<title id=\"title\">{}</title>", picture.title);
    put!(svg, "<desc id=\"desc\">");
    for one in &picture.boxes {
        put!(svg, "{}", in_words(&one.block));
    }
    put!(svg, "</desc>");
    let all = Frame {
        x: 0,
        y: 0,
        width,
        height,
    };
    put_rect(svg, &all, "fill=\"#ffffff\"");
}

/// A block in a sentence, for those who don't see the picture.
fn in_words(block: &SeenBlock) -> String {
    let mut words = format!("Block {}", block.number.0);
    match block.parent {
        None => words.push_str(": genesis"),
        Some(parent) => {
            let (epoch, payload) = (block.epoch.0, block.payload);
            let leader = leader_text(block.leader);
            let made = format!(
                " on block {}: epoch {epoch}, {leader}, payload {payload}",
                parent.0
            );
            words.push_str(&made);
            words.push_str(&signers_in_words(block));
        }
    }
    let marks = [
        (block.notarised, ", notarised"),
        (block.longest, ", on a longest chain"),
        (block.is_final, ", final"),
    ];
    words.extend(marks.iter().filter(|mark| mark.0).map(|mark| mark.1));
    if !block.final_for.is_empty() {
        words.push_str(&format!("; final for {}", office_list(&block.final_for)));
    }
    words.push('.');
    words
}

fn signers_in_words(block: &SeenBlock) -> String {
    match block.signers.is_empty() || block.number == GENESIS {
        true => ", no signers".to_string(),
        false => format!(", signers {}", office_list(&block.signers)),
    }
}

/// Thick lines last, so that they lie above the others.
fn in_order(edges: &[Edge]) -> impl Iterator<Item = &Edge> {
    let thin = edges.iter().filter(|edge| !edge.longest);
    thin.chain(edges.iter().filter(|edge| edge.longest))
}

fn put_heading(svg: &mut String, heading: &Heading) {
    put_rect(svg, &heading.band, "fill=\"#f2f2f2\"");
    for label in &heading.labels {
        put_label(svg, label);
    }
    if heading.skips {
        let y = heading.band.y + 15;
        for place in 0..3 {
            let x = heading.band.x - 24 + 8 * place;
            put!(
                svg,
                "<circle cx=\"{x}\" cy=\"{y}\" r=\"2\" fill=\"#000000\"/>"
            );
        }
    }
}

fn put_label(svg: &mut String, label: &Label) {
    let Point { x, y } = label.at;
    let size = label.size;
    let fill = if label.reversed { "#ffffff" } else { "#000000" };
    let weight = if label.bold {
        " font-weight=\"bold\""
    } else {
        ""
    };
    let anchor = match label.anchor {
        Anchor::Start => "",
        Anchor::Middle => " text-anchor=\"middle\"",
    };
    let text = &label.text;
    put!(
        svg,
        "<text x=\"{x}\" y=\"{y}\" font-size=\"{size}\" fill=\"{fill}\"{weight}{anchor}>{text}</text>"
    );
}

fn put_line(svg: &mut String, points: &[Point], course: Course, longest: bool) {
    let points: Vec<String> = points.iter().map(|p| format!("{},{}", p.x, p.y)).collect();
    let points = points.join(" ");
    let dashes = match course {
        Course::Forward => "",
        Course::Backward => " stroke-dasharray=\"7 5\"",
    };
    let (width, colour) = if longest {
        (4, "#b34700")
    } else {
        (2, "#000000")
    };
    put!(
        svg,
        "<polyline points=\"{points}\" fill=\"none\" stroke=\"{colour}\" stroke-width=\"{width}\"{dashes}/>"
    );
}

/// Where a line comes to the parent: it points to the left.
fn put_arrow(svg: &mut String, Point { x, y }: Point) {
    let (back, above, below) = (x + 11, y - 6, y + 6);
    put!(
        svg,
        "<polygon points=\"{x},{y} {back},{above} {back},{below}\" fill=\"#000000\"/>"
    );
}

fn put_box(svg: &mut String, one: &BlockBox) {
    let block = &one.block;
    let look = Look {
        notarised: block.notarised,
        longest: block.longest,
        is_final: block.is_final,
    };
    put!(svg, "<g>");
    put!(svg, "<title>{}</title>", in_words(block));
    put_block(svg, &one.frame, look);
    if let Some(seal) = &one.seal {
        put_seal(svg, seal);
    }
    if let Some(tag) = &one.tag {
        put_tag(svg, tag);
    }
    for label in &one.labels {
        put_label(svg, label);
    }
    put!(svg, "</g>");
}

fn put_sample(svg: &mut String, sample: &Sample) {
    let frame = &sample.frame;
    let look = |notarised, longest, is_final| Look {
        notarised,
        longest,
        is_final,
    };
    let middle = frame.y + frame.height / 2;
    let ends = [frame.x, frame.right()].map(|x| Point { x, y: middle });
    match sample.shape {
        Shape::Plain => put_block(svg, frame, look(false, false, false)),
        Shape::Notarised => put_block(svg, frame, look(true, false, false)),
        Shape::Longest => {
            put_line(svg, &ends, Course::Forward, true);
            put_block(svg, &right_part(frame), look(true, true, false));
        }
        Shape::Final => put_block(svg, frame, look(true, false, true)),
        Shape::Tag => put_tag(svg, &frame.inset(4)),
        Shape::Line => put_line(svg, &ends, Course::Forward, false),
        Shape::Backward => put_line(svg, &ends, Course::Backward, false),
    }
    if matches!(sample.shape, Shape::Line | Shape::Backward) {
        put_arrow(svg, ends[0]);
    }
    put_label(svg, &sample.label);
}

/// Leaves room for the line of a longest chain.
fn right_part(frame: &Frame) -> Frame {
    Frame {
        x: frame.x + 14,
        width: frame.width - 14,
        ..*frame
    }
}
