//! The library as a host sees it: the types and calls of the crate `tiling`.
//!
//! Only an arena that is not sound is handed in and out as numbers, since no
//! host can name it; every other tree comes back tile by tile.

use oracle::engine::Engine;
use oracle::value::{
    Frame, LayoutAnswer, LayoutInput, Reals, Refusal, RepairAnswer, SolveAnswer, TileOp, TileTree,
    TreeAnswer,
};
use tiling::{FrameBuffer, LayoutFrame, TileError, solve};

use crate::columns::arena_of;
use crate::convert::{action_back, frame_back, input_here, op_here, tree_back};

#[derive(Default)]
pub struct Host {
    buffer: FrameBuffer,
}

fn refusal(error: TileError) -> Refusal {
    Refusal { number: error.number(), details: error.details() }
}

fn given(tree: &TileTree) -> tiling::TileTree {
    tiling::TileTree::from_arena(arena_of(tree))
}

impl Engine for Host {
    fn name(&self) -> &'static str {
        "host"
    }

    fn from_spec(&mut self, bytes: &[u8]) -> TreeAnswer {
        match tiling::TileTree::from_table(bytes) {
            Ok(tree) => TreeAnswer { refusal: None, tree: tree_back(&tree) },
            Err(error) => {
                TreeAnswer { refusal: Some(refusal(error)), tree: TileTree::lone_empty_root() }
            }
        }
    }

    fn repair(&mut self, tree: &TileTree) -> RepairAnswer {
        let mut out = given(tree);
        match out.repair() {
            Ok(actions) => RepairAnswer {
                refusal: None,
                tree: tree_back(&out),
                actions: actions.iter().map(action_back).collect(),
            },
            Err(error) => {
                assert!(out.arena().same_bits(&arena_of(tree)), "refused, and changed");
                let refusal = Some(refusal(error));
                RepairAnswer { refusal, tree: tree.clone(), actions: Vec::new() }
            }
        }
    }

    fn is_sound(&mut self, tree: &TileTree) -> bool {
        given(tree).is_sound()
    }

    fn apply(&mut self, tree: &TileTree, op: &TileOp) -> TreeAnswer {
        let mut out = given(tree);
        match out.apply(op_here(op)) {
            Ok(()) => TreeAnswer { refusal: None, tree: tree_back(&out) },
            Err(error) => {
                assert!(out.arena().same_bits(&arena_of(tree)), "refused, and changed");
                TreeAnswer { refusal: Some(refusal(error)), tree: tree.clone() }
            }
        }
    }

    fn layout(&mut self, tree: &TileTree, input: &LayoutInput) -> LayoutAnswer {
        let (tree, input) = (given(tree), input_here(input));
        let into = tree.layout_into(input, &mut self.buffer);
        match tree.layout(input) {
            Ok(frame) => {
                assert_eq!(into, Ok(()), "both forms accept");
                self.assert_same_lists(&frame);
                assert!(tree.panes().eq(frame.focus_order().iter().copied()), "the same panes");
                LayoutAnswer { refusal: None, frame: frame_back(&frame) }
            }
            Err(error) => {
                assert_eq!(into, Err(error), "both forms refuse");
                assert!(self.buffer.is_empty(), "refused, and not empty");
                LayoutAnswer { refusal: Some(refusal(error)), frame: Frame::default() }
            }
        }
    }

    fn solve(&mut self, total: f64, shares: &Reals, minima: &Reals) -> SolveAnswer {
        let (shares, minima) = (entries(shares), entries(minima));
        match solve(total, &shares, &minima) {
            Ok(solution) => SolveAnswer {
                refusal: None,
                lengths: solution.lengths().to_vec(),
                passes: solution.passes(),
            },
            Err(error) => {
                SolveAnswer { refusal: Some(refusal(error)), lengths: Vec::new(), passes: 0 }
            }
        }
    }
}

/// A list said to be over 16 becomes one of 17, since a host has no other.
fn entries(list: &Reals) -> Vec<f64> {
    if list.too_long() { vec![1.0; 17] } else { list.entries().to_vec() }
}

impl Host {
    fn assert_same_lists(&self, frame: &LayoutFrame) {
        let buffer = &self.buffer;
        assert_eq!(buffer.revision(), frame.revision());
        assert!(buffer.panes().eq(frame.panes().iter().copied()));
        assert!(buffer.tab_bars().eq(frame.tab_bars().iter().copied()));
        assert!(buffer.tabs().eq(frame.tabs().iter().copied()));
        assert!(buffer.split_children().eq(frame.split_children().iter().copied()));
        assert!(buffer.split_handles().eq(frame.split_handles().iter().copied()));
        assert!(buffer.focus_order().eq(frame.focus_order().iter().copied()));
        assert!(buffer.paint_order().eq(frame.paint_order().iter().copied()));
    }
}
