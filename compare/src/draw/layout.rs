//! The whole picture in pixels.

use super::boxes::{self, block_box, leader_text, office_list};
use super::edges::{Plan, Rails, Routes, joints, routes};
use super::grid::{Grid, grid};
use super::legend::legend;
use super::{BlockBox, Edge, Frame, Label, Point, Sample, Seen};

/// What stands above a column.
#[derive(Clone, Debug, PartialEq, Eq)]
pub struct Heading {
    /// Behind the column's boxes.
    pub band: Frame,
    pub labels: Vec<Label>,
    /// Epochs without a block lie between this column and the one before.
    pub skips: bool,
}

#[derive(Clone, Debug, PartialEq, Eq)]
pub struct Picture {
    pub width: i32,
    pub height: i32,
    pub title: String,
    pub captions: Vec<Label>,
    pub headings: Vec<Heading>,
    /// By block.
    pub boxes: Vec<BlockBox>,
    pub edges: Vec<Edge>,
    /// Where the lines to the blocks on one parent part.
    pub joints: Vec<Point>,
    pub legend: Vec<Sample>,
}

const MARGIN: i32 = 24;
const CAPTION_LINE: i32 = 22;
/// Where the tree starts, below the three captions.
const TOP: i32 = MARGIN + 3 * CAPTION_LINE + 14;
const HEADING: i32 = 66;
/// Between two columns, and between two lanes, if at most one line runs there.
const GAP: i32 = 44;
const CHANNEL: i32 = 28;
/// Lines that run side by side are so far apart.
const APART: i32 = 10;
/// The legend's longest line has room in it.
const NARROWEST: i32 = 504;
/// A band reaches so far beyond its boxes.
const BAND: i32 = 6;

pub fn layout(seen: &Seen) -> Picture {
    let grid = grid(seen);
    let routes = routes(seen, &grid);
    let captions = captions(seen);
    let columns = columns(&routes);
    let lanes = lanes(seen, &grid, &routes, TOP + HEADING);
    let place = |block: usize| {
        let spot = grid.spots[block];
        let (x, y) = (columns.boxes[spot.column], lanes.boxes[spot.lane]);
        block_box(&seen.blocks[block], seen.n, x, y)
    };
    let boxes: Vec<BlockBox> = (0..seen.blocks.len()).map(place).collect();
    let plan = Plan {
        seen,
        grid: &grid,
        routes: &routes,
        rails: Rails {
            gaps: columns.tracks,
            channels: lanes.tracks,
            apart: APART,
        },
        boxes: &boxes,
    };
    let edges = plan.edges();
    let headings = headings(seen, &grid, &columns.boxes, lanes.end);
    let width = captions.iter().map(|label| label.frame().right());
    let width = width.fold(columns.end.max(NARROWEST), i32::max);
    let legend = legend(seen, MARGIN, lanes.end + 30, width - MARGIN);
    let height = legend.iter().map(|sample| sample.frame.bottom());
    let height = height.fold(lanes.end, i32::max);
    Picture {
        width: width + MARGIN,
        height: height + MARGIN,
        title: title(seen),
        captions,
        headings,
        boxes,
        joints: joints(&edges),
        edges,
        legend,
    }
}

/// Where boxes and tracks start along one direction, and where all ends.
struct Ruler {
    boxes: Vec<i32>,
    tracks: Vec<i32>,
    end: i32,
}

/// A gap or channel is wider with each track beyond the first.
fn room(least: i32, tracks: usize) -> i32 {
    least + APART * (tracks as i32 - 1).max(0)
}

/// Gap 0 is the left border. It takes room only if a line runs there; so does
/// the gap behind the last column.
fn columns(routes: &Routes) -> Ruler {
    let mut boxes = Vec::new();
    let mut tracks = Vec::new();
    let mut x = MARGIN;
    let last = routes.gaps.len() - 1;
    for (gap, &count) in routes.gaps.iter().enumerate() {
        tracks.push(x + GAP / 2);
        if count > 0 || (gap > 0 && gap < last) {
            x += room(GAP, count);
        }
        if gap < last {
            boxes.push(x);
            x += boxes::WIDTH;
        }
    }
    Ruler {
        boxes,
        tracks,
        end: x,
    }
}

/// Above each lane is its channel. A lane is as high as its highest box.
fn lanes(seen: &Seen, grid: &Grid, routes: &Routes, top: i32) -> Ruler {
    let mut heights = vec![0; grid.lanes];
    for (block, spot) in seen.blocks.iter().zip(&grid.spots) {
        let height = block_box(block, seen.n, 0, 0).frame.height;
        heights[spot.lane] = heights[spot.lane].max(height);
    }
    let mut boxes = Vec::new();
    let mut tracks = Vec::new();
    let mut y = top;
    for (&count, height) in routes.channels.iter().zip(heights) {
        tracks.push(y + CHANNEL / 2);
        y += room(CHANNEL, count);
        boxes.push(y);
        y += height;
    }
    Ruler {
        boxes,
        tracks,
        end: y + BAND,
    }
}

fn headings(seen: &Seen, grid: &Grid, columns: &[i32], end: i32) -> Vec<Heading> {
    let mut headings = Vec::new();
    for (column, &epoch) in grid.epochs.iter().enumerate() {
        let x = columns[column];
        let of_epoch = seen.blocks.iter().find(|block| block.epoch == epoch);
        let leader = of_epoch.and_then(|block| block.leader);
        let now = if epoch == seen.epoch { " (now)" } else { "" };
        let middle = x + boxes::WIDTH / 2;
        let label = |y, size, text| Label::new(middle, TOP + y, size, text).centred();
        let mut labels = vec![
            label(20, 14, format!("epoch {}{now}", epoch.0)).bold(),
            label(38, 13, leader_text(leader)),
        ];
        if leader.is_some_and(|leader| seen.untrusted.contains(&leader)) {
            labels.push(label(55, 13, "untrusted".to_string()));
        }
        headings.push(Heading {
            band: Frame {
                x: x - BAND,
                y: TOP,
                width: boxes::WIDTH + 2 * BAND,
                height: end - TOP,
            },
            labels,
            skips: column > 0 && grid.epochs[column - 1].0 + 1 < epoch.0,
        });
    }
    headings
}

fn title(seen: &Seen) -> String {
    let (taken, steps, office) = (seen.taken, seen.steps, seen.office.0);
    let moment = match taken {
        0 => "the opening".to_string(),
        _ => format!("step {taken} of {steps}"),
    };
    format!("Block tree after {moment}, as office {office} sees it")
}

fn captions(seen: &Seen) -> Vec<Label> {
    let (now, last) = (seen.epoch.0, seen.last_epoch.0);
    let (needed, n) = (seen.needed, seen.n);
    let untrusted = match seen.untrusted.is_empty() {
        true => "no office is untrusted".to_string(),
        false => format!("untrusted: {}", office_list(&seen.untrusted)),
    };
    let enough = format!("{needed} of {n} signers notarise a block");
    let epoch = format!("epoch {now} of {last}; {enough}");
    let lines = [(title(seen), 16), (epoch, 13), (untrusted, 13)];
    let mut labels = Vec::new();
    let mut y = MARGIN - 6;
    for (text, size) in lines {
        y += CAPTION_LINE;
        labels.push(Label::new(MARGIN, y, size, text));
    }
    labels[0].bold = true;
    labels
}
