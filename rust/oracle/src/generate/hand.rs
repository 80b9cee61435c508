//! Hostile arenas made by hand, one for each way in which a repair could go
//! round in circles, lose its place or run out of room.

use crate::value::{Axis, SLOTS, Slot, TileId, TileTree};

pub fn arenas() -> [TileTree; 5] {
    [ring(), shared_tile(), chain_of_bad_ids(), nothing_but_bad_ids(), root_out_of_range()]
}

/// A child names its own parent.
fn ring() -> TileTree {
    let mut tree = TileTree::blank();
    tree.slots[0] = Slot::split(Axis::Horizontal, &[1, 2], &[1.0, 1.0], &[]);
    tree.slots[1] = Slot::split(Axis::Vertical, &[0, 3], &[1.0, 1.0], &[]);
    tree.slots[2] = Slot::pane(20);
    tree.slots[3] = Slot::pane(30);
    tree
}

/// Two splits name the same tile; the first keeps it.
fn shared_tile() -> TileTree {
    let mut tree = TileTree::blank();
    tree.slots[0] = Slot::split(Axis::Horizontal, &[1, 2], &[1.0, 1.0], &[]);
    tree.slots[1] = Slot::split(Axis::Vertical, &[3, 4], &[1.0, 2.0], &[]);
    tree.slots[2] = Slot::split(Axis::Vertical, &[3, 5], &[1.0, 2.0], &[]);
    for at in 3..6 {
        tree.slots[at] = Slot::pane(at as u64);
    }
    tree
}

/// 63 splits, each in the one before it, after 15 ids that name nothing.
fn chain_of_bad_ids() -> TileTree {
    let mut tree = TileTree::blank();
    for at in 0..SLOTS - 1 {
        let axis = if at % 2 == 0 { Axis::Horizontal } else { Axis::Vertical };
        let mut children: Vec<u64> = (0..15).map(|bad| 1000 + 15 * at as u64 + bad).collect();
        children.push(at as u64 + 1);
        tree.slots[at] = Slot::split(axis, &children, &[], &[-1.0]);
    }
    tree.slots[SLOTS - 1] = Slot::pane(7);
    tree
}

/// Every slot is taken and nothing can be kept: there is no room for a root.
fn nothing_but_bad_ids() -> TileTree {
    let mut tree = TileTree::blank();
    for at in 0..SLOTS {
        tree.slots[at] = Slot::split(Axis::Vertical, &[64, u64::MAX, at as u64], &[f64::NAN], &[]);
    }
    tree
}

fn root_out_of_range() -> TileTree {
    let mut tree = TileTree::blank();
    tree.root = TileId { slot: u64::MAX };
    tree.slots[0] = Slot::pane(1);
    tree
}
