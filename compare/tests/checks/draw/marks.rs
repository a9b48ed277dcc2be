//! The SVG: it is well-formed, and its shapes tell what a block is.

use super::{DRAWINGS, Drawing, seen_by_default};
use skovarnek_compare::draw::{BlockBox, Shape, layout, svg};
use skovarnek_compare::text::parse;

/// The names of the tags that are open after a text; every tag is closed in its
/// turn, and every attribute is quoted.
fn assert_well_formed(name: &str, svg: &str) {
    let mut open: Vec<&str> = Vec::new();
    let mut rest = svg;
    while let Some(start) = rest.find('<') {
        assert!(!rest[..start].contains(['>', '&']), "{name}");
        assert!(
            !open.is_empty() || rest[..start].trim().is_empty(),
            "{name}"
        );
        let end = start + rest[start..].find('>').expect("a tag ends");
        let tag = &rest[start + 1..end];
        rest = &rest[end + 1..];
        assert!(!tag.contains(['<', '&', '\n']), "{name}: {tag}");
        if let Some(closed) = tag.strip_prefix('/') {
            assert_eq!(open.pop(), Some(closed), "{name}");
            continue;
        }
        let whole = tag.strip_suffix('/');
        let (word, attributes) = whole.unwrap_or(tag).split_once(' ').unwrap_or((tag, ""));
        assert_attributes(name, attributes);
        if whole.is_none() {
            open.push(word);
        }
    }
    assert!(open.is_empty() && rest == "\n", "{name}: {open:?}");
}

fn assert_attributes(name: &str, attributes: &str) {
    let mut names = Vec::new();
    let mut rest = attributes.trim();
    while !rest.is_empty() {
        let (word, behind) = rest.split_once("=\"").expect("an attribute");
        let (_, behind) = behind.split_once('"').expect("a value ends");
        assert!(
            word.bytes()
                .all(|byte| byte.is_ascii_alphanumeric() || byte == b'-')
        );
        assert!(!names.contains(&word), "{name}: {attributes}");
        names.push(word);
        rest = behind.trim_start();
    }
}

#[test]
fn the_svg_is_well_formed() {
    for Drawing { name, picture, .. } in DRAWINGS.iter() {
        let drawn = svg(picture);
        assert_well_formed(name, &drawn);
        assert!(drawn.starts_with("<svg xmlns=\"http://www.w3.org/2000/svg\""));
        let boxes = drawn.matches("<g>").count();
        assert_eq!(boxes, picture.boxes.len(), "{name}");
        let texts = drawn.matches("<text ").count();
        let in_boxes: usize = picture.boxes.iter().map(|one| one.labels.len()).sum();
        assert!(texts > in_boxes, "{name}");
        for part in [
            "<title id=",
            "<desc id=",
            "role=\"img\"",
            "fill=\"#ffffff\"",
        ] {
            assert!(drawn.contains(part), "{name}: {part}");
        }
        for part in ["<script", "href", "@import", "url("] {
            assert!(!drawn.contains(part), "{name}: {part}");
        }
    }
}

/// Two outlines for notarised, a bar for longest, corners cut off and the word
/// for final, a frame with dots for other offices.
fn assert_shapes(name: &str, group: &str, one: &BlockBox) {
    let block = &one.block;
    let count = |what: &str| group.matches(what).count();
    let outlines = count("stroke=\"#000000\" stroke-width=\"1\"/>");
    assert_eq!(outlines, 1 + usize::from(block.notarised), "{name}");
    let cut = if block.is_final { outlines } else { 0 };
    assert_eq!(count("<polygon "), cut, "{name}");
    assert_eq!(
        count("fill=\"#b34700\""),
        usize::from(block.longest),
        "{name}"
    );
    assert_eq!(
        count(">final</text>"),
        usize::from(block.is_final),
        "{name}"
    );
    let tags = usize::from(!block.final_for.is_empty());
    assert_eq!(count("stroke-dasharray=\"2 2\""), tags, "{name}");
    assert_eq!(count("<text "), one.labels.len(), "{name}");
    for label in &one.labels {
        let (x, y, text) = (label.at.x, label.at.y, &label.text);
        let place = format!("<text x=\"{x}\" y=\"{y}\" ");
        let line = group.lines().find(|line| line.starts_with(&place));
        let line = line.expect("a line for each label");
        assert!(line.ends_with(&format!(">{text}</text>")), "{name}: {line}");
    }
}

#[test]
fn shapes_tell_what_a_block_is() {
    for Drawing { name, picture, .. } in DRAWINGS.iter() {
        let drawn = svg(picture);
        let groups = drawn.split("<g>\n").skip(1);
        let groups = groups.map(|group| group.split("</g>").next().expect("a group"));
        for (group, one) in groups.zip(&picture.boxes) {
            assert_shapes(name, group, one);
        }
    }
}

#[test]
fn the_legend_has_each_shape() {
    let log = parse("offices 4\ntrusted 0 1 2\nleaders 0\n").expect("a text");
    let legend = layout(&seen_by_default(&log)).legend;
    let lines: Vec<(Shape, &str)> = legend
        .iter()
        .map(|sample| (sample.shape, sample.label.text.as_str()))
        .collect();
    let back = "epoch not above the parent's: no valid chain";
    let wanted = [
        (Shape::Plain, "not notarised"),
        (Shape::Notarised, "notarised: signed by 3 of 4 or more"),
        (Shape::Longest, "bar: on a longest chain"),
        (Shape::Final, "final for office 0"),
        (Shape::Tag, "final block of other offices"),
        (Shape::Line, "to the parent"),
        (Shape::Backward, back),
    ];
    assert_eq!(lines, wanted);
}
