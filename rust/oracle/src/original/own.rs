//! The original's own types and calls, as a host of it would use them: for
//! measuring its time. Nothing of document 01 stands around them.

pub use kurbo::{Rect, Size};

use super::convert::Names;
use super::frames::{frame_back, input_there};
use super::table;
use crate::util::solve_lengths_with_min;
use crate::value;

pub use super::shims::{LayoutInput, TileOp};
pub use crate::frame::LayoutFrame;
pub use crate::snapshot::RepairAction;
pub use crate::spec::TileSpec;
pub use crate::tree::TileTree;

/// The spec of a good table.
pub fn spec(bytes: &[u8]) -> TileSpec {
    table::spec_of(bytes).expect("a good table")
}

/// An arena as the original holds it.
pub fn tree(tree: &value::TileTree) -> TileTree {
    Names::default().arena(tree)
}

pub fn op(op: &value::TileOp) -> TileOp {
    Names::default().op(op)
}

pub fn input(input: &value::LayoutInput) -> LayoutInput {
    input_there(input)
}

/// A frame's lists in the shape of document 01.
pub fn frame(frame: &LayoutFrame) -> value::Frame {
    frame_back(frame)
}

/// Its repair, which its restoring of saved trees calls.
pub fn repair(tree: &mut TileTree) -> Vec<RepairAction> {
    crate::tree::repair(tree)
}

/// Its solver, which its layout calls.
pub fn solve(total: f64, shares: &[f64], minima: &[f64]) -> Vec<f64> {
    solve_lengths_with_min(total, shares, minima)
}
