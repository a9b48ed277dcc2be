//! The picture of the block tree: nothing in it overlaps, and it shows what the
//! register says. Below, its SVG, and the tool that draws it.

mod called;
mod marks;

use super::forks::chain;
use super::seeds_or;
use skovarnek_compare::draw::{BlockBox, Choice, Course, Frame, Label, Picture, Point, Seen};
use skovarnek_compare::draw::{layout, seen};
use skovarnek_compare::generate;
use skovarnek_compare::packed::{Log, read_log};
use skovarnek_compare::register::{Block, GENESIS, Office, Register, is_quorum};
use skovarnek_compare::text::parse;
use std::sync::LazyLock;

/// So many generated logs are drawn and no more: all drawings are kept.
const MOST_SEEDS: u64 = 300;

/// What is drawn, with a name for it.
struct Drawing {
    name: String,
    seen: Seen,
    picture: Picture,
}

/// The drawings of all logs, made once. Trees that are hard to draw are drawn a
/// second time with all that a box can hold.
static DRAWINGS: LazyLock<Vec<Drawing>> = LazyLock::new(|| {
    let mut drawings = Vec::new();
    for (name, log) in logs() {
        drawings.push(drawing(name, seen_by_default(&log)));
    }
    for (name, text) in hard_texts() {
        let seen = seen_by_default(&parse(&text).expect("a text"));
        drawings.push(drawing(format!("{name}, full"), full(seen)));
    }
    drawings
});

fn drawing(name: String, seen: Seen) -> Drawing {
    let picture = layout(&seen);
    Drawing {
        name,
        seen,
        picture,
    }
}

/// Every block is all that it can be, and every second one for many offices.
fn full(mut seen: Seen) -> Seen {
    for block in &mut seen.blocks {
        block.notarised = true;
        block.longest = true;
        block.is_final = true;
        block.count = 32;
        block.signers = (0..32).filter(|q| q % 3 < 2).map(Office).collect();
        if block.number.0 % 2 == 1 {
            block.final_for = (1..32).step_by(2).map(Office).collect();
        }
    }
    seen
}

/// Generated logs that read, the heavy ones, and trees that are hard to draw.
fn logs() -> Vec<(String, Log)> {
    let mut logs = Vec::new();
    for seed in seeds_or(MOST_SEEDS).take(MOST_SEEDS as usize) {
        let log = read_log(&generate::log(seed));
        logs.extend(log.map(|log| (format!("seed {seed}"), log)));
    }
    for row in generate::rows() {
        let log = read_log(&row.log).expect("a log that reads");
        logs.push((row.name.to_string(), log));
    }
    for (name, text) in hard_texts() {
        logs.push((name.to_string(), parse(&text).expect("a text")));
    }
    logs
}

/// Four lanes; 255 blocks in one epoch; 255 in a row, each of an earlier epoch
/// than its parent; the greatest numbers; a trunk that many blocks go back to.
fn hard_texts() -> Vec<(&'static str, String)> {
    let opening = "offices 32\ntrusted 0 1 2 3 4 5 6 7 8 9 10 11 12 13 14 15 16 17 18 19 20 21\n";
    let start = format!("{opening}leaders 31 0\n");
    let drafts = |draft: &dyn Fn(u16) -> String| {
        let lines: Vec<String> = (0..255).map(draft).collect();
        format!("{start}{}", lines.join("\n"))
    };
    let four = "draft 0 1 1\ndraft 0 1 2\ndraft 0 1 3\ndraft 0 1 4\ndraft 2 2 5\ndraft 1 3 6\n";
    let four = format!("{start}{four}draft 3 2 7\ndraft 4 2 8\ndraft 2 1 9\ndraft 2 0 9\n");
    vec![
        ("four lanes", four),
        ("one epoch", drafts(&|b| format!("draft 0 1 {b}"))),
        (
            "backward",
            drafts(&|b| format!("draft {b} {} {b}", 511 - b)),
        ),
        ("the same epoch", drafts(&|b| format!("draft {b} 7 {b}"))),
        (
            "wide numbers",
            drafts(&|b| format!("draft {b} {} 65535", 511 - 254 + b)),
        ),
        (
            "a trunk",
            drafts(&|b| format!("draft {} {} {b}", b / 2, (b * 37) % 512)),
        ),
    ]
}

fn seen_by_default(log: &Log) -> Seen {
    seen(log, &Choice::default()).expect("a choice that fits")
}

/// The frame of a piece of a line, without width.
fn piece(one: Point, other: Point) -> Frame {
    Frame {
        x: one.x.min(other.x),
        y: one.y.min(other.y),
        width: (one.x - other.x).abs(),
        height: (one.y - other.y).abs(),
    }
}

/// Whether a piece of a line meets a frame, its border too.
fn meets(piece: &Frame, frame: &Frame) -> bool {
    let across = piece.x <= frame.right() && frame.x <= piece.right();
    across && piece.y <= frame.bottom() && frame.y <= piece.bottom()
}

#[test]
fn each_block_has_one_box_and_no_two_overlap() {
    for Drawing {
        name,
        seen,
        picture,
    } in DRAWINGS.iter()
    {
        let numbers: Vec<Block> = picture.boxes.iter().map(|one| one.block.number).collect();
        let all: Vec<Block> = (0..seen.blocks.len()).map(|b| Block(b as u8)).collect();
        assert_eq!(numbers, all, "{name}");
        for (place, one) in picture.boxes.iter().enumerate() {
            for other in &picture.boxes[..place] {
                let (a, b) = (one.block.number, other.block.number);
                assert!(!one.frame.overlaps(&other.frame), "{name}: {a:?} {b:?}");
            }
        }
    }
}

/// A line meets no box but that of its block, on the left, and that of the
/// parent, on the right, and no text of a heading.
#[test]
fn no_line_meets_a_foreign_box() {
    for Drawing { name, picture, .. } in DRAWINGS.iter() {
        for edge in &picture.edges {
            let pieces: Vec<Frame> = edge.points.windows(2).map(|p| piece(p[0], p[1])).collect();
            let level = |piece: &Frame| piece.width == 0 || piece.height == 0;
            assert!(pieces.iter().all(level), "{name}: {edge:?}");
            for one in &picture.boxes {
                let mut met = pieces.iter().filter(|piece| meets(piece, &one.frame));
                let number = one.block.number;
                if number == edge.child || number == edge.parent {
                    let inside = met.any(|piece| one.frame.inset(1).overlaps(&piece.inset(-1)));
                    assert!(!inside, "{name}: {edge:?} in {number:?}");
                } else {
                    assert_eq!(met.next(), None, "{name}: {edge:?} {number:?}");
                }
            }
            let headings = picture.headings.iter().flat_map(|heading| &heading.labels);
            for label in headings.chain(&picture.captions) {
                let met = pieces.iter().any(|piece| meets(piece, &label.frame()));
                assert!(!met, "{name}: {edge:?} {label:?}");
            }
        }
    }
}

/// Lines to blocks on different parents cross, but don't run on each other.
#[test]
fn lines_of_different_parents_keep_apart() {
    for Drawing { name, picture, .. } in DRAWINGS.iter() {
        let mut pieces: Vec<(Block, Frame)> = Vec::new();
        for edge in &picture.edges {
            let own = edge.points.windows(2).map(|p| piece(p[0], p[1]));
            pieces.extend(own.map(|piece| (edge.parent, piece)));
        }
        for (place, (parent, one)) in pieces.iter().enumerate() {
            let others = pieces[..place].iter().filter(|other| other.0 != *parent);
            for (_, other) in others {
                let same_way = (one.width == 0) == (other.width == 0);
                let runs_on = same_way && meets(one, other);
                assert!(!runs_on, "{name}: {one:?} {other:?}");
            }
        }
    }
}

/// A line starts at the parent's right and ends at the block's left.
#[test]
fn lines_lead_from_parents_to_blocks() {
    for Drawing {
        name,
        seen,
        picture,
    } in DRAWINGS.iter()
    {
        assert_eq!(picture.edges.len(), seen.blocks.len() - 1, "{name}");
        for (edge, block) in picture.edges.iter().zip(&seen.blocks[1..]) {
            assert_eq!(
                (edge.child, Some(edge.parent)),
                (block.number, block.parent)
            );
            let parent = &seen.blocks[edge.parent.index()];
            let frame = |block: Block| picture.boxes[block.index()].frame;
            let (from, to) = (frame(edge.parent), frame(edge.child));
            let (first, last) = (edge.points[0], edge.points[edge.points.len() - 1]);
            assert_eq!((first.x, last.x), (from.right(), to.x), "{name}");
            assert!(from.y < first.y && first.y < from.bottom(), "{name}");
            assert!(to.y < last.y && last.y < to.bottom(), "{name}");
            let forward = edge.course == Course::Forward;
            assert_eq!(forward, block.epoch > parent.epoch, "{name}");
            assert_eq!(forward, from.right() < to.x, "{name}");
            assert_eq!(edge.longest, block.longest, "{name}");
        }
    }
}

/// Every line of text is inside its box, and no two overlap.
fn assert_text_fits(name: &str, one: &BlockBox) {
    let inner = one.frame.inset(5);
    for (place, label) in one.labels.iter().enumerate() {
        let frame = label.frame();
        assert!(inner.contains(&frame), "{name}: {label:?}");
        let overlaps = |other: &&Label| other.frame().overlaps(&frame);
        let other = one.labels[..place].iter().find(overlaps);
        assert_eq!(other, None, "{name}: {label:?}");
    }
    let tagged = |label: &&Label| one.tag.is_some_and(|tag| tag.contains(&label.frame()));
    let of_others = one.labels.iter().filter(tagged).count();
    assert_eq!(of_others > 0, !one.block.final_for.is_empty(), "{name}");
    let sealed = |label: &&Label| one.seal.is_some_and(|seal| seal.contains(&label.frame()));
    let seals: Vec<&Label> = one.labels.iter().filter(sealed).collect();
    assert_eq!(seals.len(), usize::from(one.block.is_final), "{name}");
    assert!(seals.iter().all(|seal| seal.text == "final"), "{name}");
}

#[test]
fn text_fits() {
    for Drawing { name, picture, .. } in DRAWINGS.iter() {
        for one in &picture.boxes {
            assert_text_fits(name, one);
        }
        for heading in &picture.headings {
            for label in &heading.labels {
                assert!(heading.band.contains(&label.frame()), "{name}: {label:?}");
                let met = |one: &&BlockBox| one.frame.overlaps(&label.frame());
                assert!(!picture.boxes.iter().any(|one| met(&one)), "{name}");
            }
        }
    }
}

/// Captions above the tree, the tree, the legend below it, all inside.
#[test]
fn the_parts_keep_apart() {
    for Drawing { name, picture, .. } in DRAWINGS.iter() {
        let whole = Frame {
            x: 0,
            y: 0,
            width: picture.width,
            height: picture.height,
        };
        let bands: Vec<Frame> = picture
            .headings
            .iter()
            .map(|heading| heading.band)
            .collect();
        let captions = picture.captions.iter().map(Label::frame);
        let samples = picture.legend.iter();
        let samples = samples.flat_map(|sample| [sample.frame, sample.label.frame()]);
        let parts: Vec<Frame> = captions.chain(bands.clone()).chain(samples).collect();
        for (place, part) in parts.iter().enumerate() {
            assert!(whole.contains(part), "{name}: {part:?}");
            let other = parts[..place].iter().find(|other| other.overlaps(part));
            assert_eq!(other, None, "{name}: {part:?}");
        }
        for one in &picture.boxes {
            let inside = |band: &&Frame| band.contains(&one.frame);
            assert_eq!(bands.iter().filter(inside).count(), 1, "{name}");
        }
        let ends = picture.edges.iter().flat_map(|edge| &edge.points);
        let last = bands.iter().map(Frame::bottom).max();
        for point in ends {
            assert!(0 < point.x && point.x < picture.width, "{name}");
            assert!(Some(point.y) < last, "{name}");
        }
    }
}

fn register_after(log: &Log, steps: usize) -> Register {
    let mut register = Register::open(&log.opening).expect("a log that reads opens");
    for step in &log.steps[..steps] {
        let _ = register.step(step);
    }
    register
}

/// For every trusted office: what is drawn is what the register says.
fn assert_as_register(name: &str, log: &Log, office: Office, taken: usize) {
    let choice = Choice {
        office: Some(office.index()),
        step: Some(taken),
    };
    let seen = seen(log, &choice).expect("a choice that fits");
    let register = register_after(log, taken);
    let view = register.view(office);
    let all: Vec<Block> = (0..=register.last_block().0).map(Block).collect();
    let tips = all.iter().filter(|&&block| view.is_longest(block));
    let longest: Vec<Block> = tips.flat_map(|&tip| chain(&register, tip)).collect();
    let final_chain = chain(&register, register.final_block(office));
    assert_eq!(seen.blocks.len(), all.len(), "{name}");
    for (block, &number) in layout(&seen).boxes.iter().map(|one| &one.block).zip(&all) {
        let record = register.block(number);
        assert_eq!(block.number, number, "{name}");
        assert_eq!(block.parent, (number != GENESIS).then_some(record.parent));
        assert_eq!((block.epoch, block.payload), (record.epoch, record.payload));
        assert_eq!(block.count, view.notarised(number).signers, "{name}");
        assert_eq!(
            block.notarised,
            is_quorum(block.count, register.n()),
            "{name}"
        );
        assert_eq!(block.longest, longest.contains(&number), "{name}");
        assert_eq!(block.is_final, final_chain.contains(&number), "{name}");
        let others = register.trusted_offices().filter(|&other| other != office);
        let final_for = others.filter(|&other| register.final_block(other) == number);
        assert_eq!(
            block.final_for,
            final_for.collect::<Vec<Office>>(),
            "{name}"
        );
    }
}

#[test]
fn what_is_drawn_is_what_the_register_says() {
    for (name, log) in logs().into_iter().filter(|(_, log)| log.steps.len() < 3000) {
        for office in register_after(&log, 0).trusted_offices() {
            assert_as_register(&name, &log, office, log.steps.len());
        }
        assert_as_register(&name, &log, first_trusted(&log), log.steps.len() / 2);
        assert_as_register(&name, &log, first_trusted(&log), 0);
    }
}

fn first_trusted(log: &Log) -> Office {
    let offices = register_after(log, 0);
    offices.trusted_offices().next().expect("a trusted office")
}

/// A block keeps its lane when the tree grows.
#[test]
fn lanes_stay() {
    for seed in 0..60 {
        let Ok(log) = read_log(&generate::log(seed)) else {
            continue;
        };
        let order = |step: usize| {
            let choice = Choice {
                office: None,
                step: Some(step),
            };
            let picture = layout(&seen(&log, &choice).expect("a choice that fits"));
            let mut tops: Vec<i32> = picture.boxes.iter().map(|one| one.frame.y).collect();
            let mut lanes = tops.clone();
            lanes.sort();
            lanes.dedup();
            for top in &mut tops {
                *top = lanes.partition_point(|lane| lane < top) as i32;
            }
            tops
        };
        let (half, whole) = (order(log.steps.len() / 2), order(log.steps.len()));
        assert_eq!(half, whole[..half.len()], "seed {seed}");
    }
}
