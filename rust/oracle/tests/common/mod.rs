//! What the tests share: both implementations, and trees by hand.
#![allow(dead_code, unused_imports)]

use oracle::engine::Engine;
use oracle::model::Model;
#[cfg(original)]
use oracle::original::Original;
use oracle::value::{
    Axis, DockTarget, Placement, Reals, Refusal, Slot, TabBarPlacement, TileId, TileOp, TileTree,
    TreeAnswer,
};

pub use Axis::{Horizontal, Vertical};
pub use Placement::{After, Before};
pub use TabBarPlacement::{Hidden, Left, Top};

/// Runs a test on the original, if it is at hand, and on the model.
pub fn on_both(test: impl Fn(&mut dyn Engine)) {
    #[cfg(original)]
    test(&mut Original);
    test(&mut Model);
}

/// A tree with these slots, in order from 0; the first is the root.
pub fn tree(slots: &[Slot]) -> TileTree {
    let mut tree = TileTree::blank();
    tree.slots[..slots.len()].copy_from_slice(slots);
    tree
}

/// A horizontal split of panes 1, 2, ... in slots 1, 2, ..., with these shares.
pub fn row(shares: &[f64]) -> TileTree {
    let children: Vec<u64> = (1..=shares.len() as u64).collect();
    let mut slots = vec![Slot::split(Horizontal, &children, shares, &[])];
    slots.extend(children.iter().map(|&pane| Slot::pane(pane)));
    tree(&slots)
}

pub fn id(slot: u64) -> TileId {
    TileId { slot }
}

pub fn beside(tile: u64, axis: Axis, placement: Placement, ratio: f64) -> DockTarget {
    DockTarget::Beside { tile: id(tile), axis, placement, ratio }
}

pub fn into(group: u64, index: Option<u64>) -> DockTarget {
    DockTarget::Into { group: id(group), index }
}

pub fn move_pane(pane: u64, target: DockTarget) -> TileOp {
    TileOp::Move { pane, target }
}

pub fn split(pane: u64, axis: Axis, new_pane: u64, placement: Placement, fraction: f64) -> TileOp {
    TileOp::SplitPane { pane, axis, new_pane, placement, fraction }
}

pub fn number(answer: &TreeAnswer) -> u64 {
    answer.refusal.map_or(0, |refusal: Refusal| refusal.number)
}

pub fn reals(list: &Reals) -> Vec<f64> {
    list.entries().to_vec()
}

pub fn children(slot: &Slot) -> Vec<u64> {
    slot.children.entries().iter().map(|child| child.slot).collect()
}
