//! What an implementation of document 01 must answer to be compared.
//!
//! The original (with document 01's own parts put around it) and the model are
//! two; the library is a third (`rust/compare/src/library.rs`).

use crate::value::{
    LayoutAnswer, LayoutInput, Reals, RepairAnswer, SolveAnswer, TileOp, TileTree, TreeAnswer,
};

pub trait Engine {
    fn name(&self) -> &'static str;
    #[allow(clippy::wrong_self_convention)]
    fn from_spec(&mut self, bytes: &[u8]) -> TreeAnswer;
    fn repair(&mut self, tree: &TileTree) -> RepairAnswer;
    fn is_sound(&mut self, tree: &TileTree) -> bool;
    fn apply(&mut self, tree: &TileTree, op: &TileOp) -> TreeAnswer;
    fn layout(&mut self, tree: &TileTree, input: &LayoutInput) -> LayoutAnswer;
    fn solve(&mut self, total: f64, shares: &Reals, minima: &Reals) -> SolveAnswer;
}
