//! A model of document 01's whole behaviour, written from that document, with
//! its own parts: 64 slots, the lowest empty slot first, numbered refusals and
//! their order, widths of 16, minus zero read as zero, spec bytes.
//!
//! It shares no code with the original. Where document 01 says "as the Rust",
//! the comparison is what shows that the two agree.

mod insert;
mod layout;
mod numbers;
mod operations;
mod repair;
mod solver;
mod spec;
mod table;
mod tabs;

pub use solver::solve_from;

use crate::engine::Engine;
use crate::value::{
    LayoutAnswer, LayoutInput, Reals, RepairAnswer, SolveAnswer, TileOp, TileTree, TreeAnswer,
};

pub struct Model;

impl Engine for Model {
    fn name(&self) -> &'static str {
        "model"
    }

    fn from_spec(&mut self, bytes: &[u8]) -> TreeAnswer {
        spec::from_spec(bytes)
    }

    fn repair(&mut self, tree: &TileTree) -> RepairAnswer {
        repair::repair(tree)
    }

    fn is_sound(&mut self, tree: &TileTree) -> bool {
        repair::is_sound(tree)
    }

    fn apply(&mut self, tree: &TileTree, op: &TileOp) -> TreeAnswer {
        operations::apply(tree, op)
    }

    fn layout(&mut self, tree: &TileTree, input: &LayoutInput) -> LayoutAnswer {
        layout::layout(tree, input)
    }

    fn solve(&mut self, total: f64, shares: &Reals, minima: &Reals) -> SolveAnswer {
        solver::solve(total, shares, minima)
    }
}
