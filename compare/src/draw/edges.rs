//! The lines from the blocks to their parents. They run in the gaps between
//! columns and in the channels between lanes, so that none meets a foreign box.
//!
//! A line leaves the parent on the right and comes to the block from the left.
//! Where it needs to change lanes, it does so in the gap right of the parent.
//! Where the block's epoch is not above its parent's, it goes back through the
//! channel above the block's lane, and down in the gap left of the block. Lines
//! of different parents may cross, but never run on top of each other.

use super::grid::{Grid, Spot};
use super::tracks::{Span, tracks};
use super::{BlockBox, Frame, Point, Seen, SeenBlock, boxes::PORT};
use crate::register::Block;

/// Where a line leads, seen from the parent.
#[derive(Clone, Copy, Debug, PartialEq, Eq)]
pub enum Course {
    Forward,
    /// To a block whose epoch is not above the parent's.
    Backward,
}

#[derive(Clone, Debug, PartialEq, Eq)]
pub struct Edge {
    pub child: Block,
    pub parent: Block,
    /// From the parent's box to the child's.
    pub points: Vec<Point>,
    pub course: Course,
    /// Both stand in a chain that is longest.
    pub longest: bool,
}

/// The tracks of the lines. Gap g is left of column g, the last one is right of
/// the last column; a channel is above its lane.
pub struct Routes {
    pub gaps: Vec<usize>,
    pub channels: Vec<usize>,
    /// By parent, in the gap right of it.
    out: Vec<usize>,
    /// By child, in the gap left of it.
    back: Vec<usize>,
    /// By child, in the channel above it.
    over: Vec<usize>,
}

/// A line that runs down a gap: that of a parent or that of a child.
#[derive(Clone, Copy)]
enum Runner {
    Out(usize),
    Back(usize),
}

/// Lanes and channels from above: each channel comes before its lane.
fn lane_row(spot: Spot) -> usize {
    2 * spot.lane + 1
}

fn channel_row(spot: Spot) -> usize {
    2 * spot.lane
}

pub fn routes(seen: &Seen, grid: &Grid) -> Routes {
    let blocks = seen.blocks.len();
    let mut routes = Routes {
        gaps: Vec::new(),
        channels: Vec::new(),
        out: vec![0; blocks],
        back: vec![0; blocks],
        over: vec![0; blocks],
    };
    for gap in 0..=grid.epochs.len() {
        let (runners, spans): (Vec<Runner>, Vec<Span>) = runners(seen, grid, gap).unzip();
        let (tracks, count) = tracks(&spans);
        routes.gaps.push(count);
        for (runner, track) in runners.iter().zip(tracks) {
            match *runner {
                Runner::Out(block) => routes.out[block] = track,
                Runner::Back(block) => routes.back[block] = track,
            }
        }
    }
    for lane in 0..grid.lanes {
        let (overs, spans): (Vec<usize>, Vec<Span>) = overs(seen, grid, lane).unzip();
        let (tracks, count) = tracks(&spans);
        routes.channels.push(count);
        for (&block, track) in overs.iter().zip(tracks) {
            routes.over[block] = track;
        }
    }
    routes
}

/// What runs down a gap, and over which rows.
fn runners<'a>(
    seen: &'a Seen,
    grid: &'a Grid,
    gap: usize,
) -> impl Iterator<Item = (Runner, Span)> + 'a {
    let all = 0..seen.blocks.len();
    let out = all
        .clone()
        .filter(move |&b| grid.spots[b].column + 1 == gap);
    let out = out.filter_map(|b| Some((Runner::Out(b), out_span(seen, grid, b)?)));
    let back = all.filter(move |&b| grid.spots[b].column == gap);
    let back = back.filter(|&b| seen.is_backward(&seen.blocks[b]));
    let back = back.map(|b| {
        let spot = grid.spots[b];
        (Runner::Back(b), (channel_row(spot), lane_row(spot)))
    });
    out.chain(back)
}

/// From the highest to the lowest of a parent's row and those in which its lines
/// go on; none if all go straight on.
fn out_span(seen: &Seen, grid: &Grid, parent: usize) -> Option<Span> {
    let own = lane_row(grid.spots[parent]);
    let number = Some(seen.blocks[parent].number);
    let children = seen.blocks.iter().filter(|child| child.parent == number);
    let row = |spot: Spot, backward: bool| match backward {
        true => channel_row(spot),
        false => lane_row(spot),
    };
    let rows = children.map(|c| row(grid.spots[c.number.index()], seen.is_backward(c)));
    let (first, last) = rows.fold((own, own), |(a, b), row| (a.min(row), b.max(row)));
    (first < last).then_some((first, last))
}

/// What runs through the channel above a lane, and over which gaps.
fn overs<'a>(
    seen: &'a Seen,
    grid: &'a Grid,
    lane: usize,
) -> impl Iterator<Item = (usize, Span)> + 'a {
    let blocks = seen.blocks.iter().filter(|block| seen.is_backward(block));
    let over = move |block: &SeenBlock| {
        let own = grid.spots[block.number.index()];
        let parent = grid.spots[block.parent?.index()];
        let span = (own.column, parent.column + 1);
        (own.lane == lane).then_some((block.number.index(), span))
    };
    blocks.filter_map(over)
}

/// Where tracks are, in pixels: the first of each gap and channel, and how far
/// they are apart.
pub struct Rails {
    pub gaps: Vec<i32>,
    pub channels: Vec<i32>,
    pub apart: i32,
}

/// All that a line depends on.
pub struct Plan<'a> {
    pub seen: &'a Seen,
    pub grid: &'a Grid,
    pub routes: &'a Routes,
    pub rails: Rails,
    /// By block.
    pub boxes: &'a [BlockBox],
}

impl Plan<'_> {
    /// The lines to all blocks but genesis.
    pub fn edges(&self) -> Vec<Edge> {
        let blocks = self.seen.blocks.iter();
        let edge = |block: &SeenBlock| block.parent.map(|parent| self.edge(block, parent));
        blocks.filter_map(edge).collect()
    }

    fn edge(&self, block: &SeenBlock, parent: Block) -> Edge {
        let course = match self.seen.is_backward(block) {
            true => Course::Backward,
            false => Course::Forward,
        };
        Edge {
            child: block.number,
            parent,
            points: self.points(block.number.index(), parent.index(), course),
            course,
            longest: block.longest,
        }
    }

    fn points(&self, child: usize, parent: usize, course: Course) -> Vec<Point> {
        let (from, to) = (&self.boxes[parent].frame, &self.boxes[child].frame);
        let port = |x: i32, frame: &Frame| Point {
            x,
            y: frame.y + PORT,
        };
        let (start, end) = (port(from.right(), from), port(to.x, to));
        let track = |first: i32, track: usize| first + self.rails.apart * track as i32;
        let right = self.rails.gaps[self.grid.spots[parent].column + 1];
        let out = track(right, self.routes.out[parent]);
        if course == Course::Forward {
            return forward(start, end, out);
        }
        let Spot { column, lane } = self.grid.spots[child];
        let over = track(self.rails.channels[lane], self.routes.over[child]);
        let back = track(self.rails.gaps[column], self.routes.back[child]);
        backward(start, end, [out, over, back])
    }
}

/// Straight, or by way of the parent's track.
fn forward(start: Point, end: Point, out: i32) -> Vec<Point> {
    if start.y == end.y {
        return vec![start, end];
    }
    let turn = |y| Point { x: out, y };
    vec![start, turn(start.y), turn(end.y), end]
}

fn backward(start: Point, end: Point, [out, over, back]: [i32; 3]) -> Vec<Point> {
    let turn = |x, y| Point { x, y };
    let (away, left) = (turn(out, start.y), turn(back, end.y));
    vec![start, away, turn(out, over), turn(back, over), left, end]
}

/// Where the lines of a parent part. A crossing of other lines is no joint.
pub fn joints(edges: &[Edge]) -> Vec<Point> {
    let mut joints = Vec::new();
    for edge in edges {
        let siblings = edges.iter().filter(|other| other.parent == edge.parent);
        let siblings: Vec<&Edge> = siblings.collect();
        for &point in &edge.points[1..edge.points.len() - 1] {
            if !joints.contains(&point) && ways(&siblings, point) >= 3 {
                joints.push(point);
            }
        }
    }
    joints
}

/// In how many directions lines lead away from a point.
fn ways(edges: &[&Edge], point: Point) -> usize {
    let mut ways = Vec::new();
    for edge in edges {
        for pair in edge.points.windows(2) {
            if !lies_on(point, pair[0], pair[1]) {
                continue;
            }
            let way = |end: &Point| ((end.x - point.x).signum(), (end.y - point.y).signum());
            ways.extend(pair.iter().map(way).filter(|&way| way != (0, 0)));
        }
    }
    ways.sort();
    ways.dedup();
    ways.len()
}

/// Whether a point lies on a level or upright piece of a line.
fn lies_on(point: Point, one: Point, other: Point) -> bool {
    let between = |at: i32, a: i32, b: i32| a.min(b) <= at && at <= a.max(b);
    between(point.x, one.x, other.x) && between(point.y, one.y, other.y)
}
