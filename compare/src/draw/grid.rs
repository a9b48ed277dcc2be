//! The place of each block: its epoch's column, and a lane. A block goes on in
//! its parent's lane if that is free, else in the nearest free one. Blocks are
//! placed in the order of their numbers, so a block keeps its lane when the tree
//! grows.

use super::{Seen, SeenBlock};
use crate::register::Epoch;

#[derive(Clone, Copy, Debug, PartialEq, Eq)]
pub struct Spot {
    pub column: usize,
    pub lane: usize,
}

#[derive(Clone, Debug, PartialEq, Eq)]
pub struct Grid {
    /// By column, ascending; only those that have a block.
    pub epochs: Vec<Epoch>,
    /// By block.
    pub spots: Vec<Spot>,
    pub lanes: usize,
}

/// By lane, the columns that are taken, from the first to the last. The border
/// left of column 0 counts as column -1.
#[derive(Default)]
struct Lanes(Vec<Vec<(i32, i32)>>);

impl Lanes {
    fn is_free(&self, lane: usize, (first, last): (i32, i32)) -> bool {
        let apart = |taken: &(i32, i32)| taken.1 < first || last < taken.0;
        self.0.get(lane).is_none_or(|taken| taken.iter().all(apart))
    }

    fn take(&mut self, lane: usize, columns: (i32, i32)) {
        if lane == self.0.len() {
            self.0.push(Vec::new());
        }
        self.0[lane].push(columns);
    }

    /// The free lane that is nearest to another one, the one below before the
    /// one above. A new lane at the bottom is always free.
    fn nearest(&self, lane: usize, columns: (i32, i32)) -> usize {
        let free = (0..=self.0.len()).filter(|&other| self.is_free(other, columns));
        let nearest = free.min_by_key(|&other| (other.abs_diff(lane), other < lane));
        nearest.expect("a new lane is free")
    }
}

pub fn grid(seen: &Seen) -> Grid {
    let mut epochs: Vec<Epoch> = seen.blocks.iter().map(|block| block.epoch).collect();
    epochs.sort();
    epochs.dedup();
    let mut lanes = Lanes::default();
    let mut spots = Vec::new();
    for block in &seen.blocks {
        let column = epochs.partition_point(|&epoch| epoch < block.epoch);
        let lane = lane(&mut lanes, &spots, block, column);
        spots.push(Spot { column, lane });
    }
    let lanes = lanes.0.len();
    Grid {
        epochs,
        spots,
        lanes,
    }
}

/// A lane takes the columns of a block's box and of the line that leads to it.
/// In the parent's own lane that line starts at the parent's box. In another
/// lane it comes in right of the parent's column; there the lane must have no
/// box, from which a line might go on. A line to a block of no greater epoch
/// comes in left of the block's own column.
fn lane(lanes: &mut Lanes, spots: &[Spot], block: &SeenBlock, column: usize) -> usize {
    let own = column as i32;
    let parent = block.parent.map(|parent| spots[parent.index()]);
    let (lane, columns) = match parent {
        None => (0, (own, own)),
        Some(parent) => {
            let from = parent.column as i32;
            let straight = (from + 1, own);
            if from < own && lanes.is_free(parent.lane, straight) {
                (parent.lane, straight)
            } else {
                let columns = (from.min(own - 1), own);
                (lanes.nearest(parent.lane, columns), columns)
            }
        }
    };
    lanes.take(lane, columns);
    lane
}
