//! The original's tree.rs, unchanged, and beside it the few functions that
//! reach its private parts: arenas from raw parts, slots out, repair with its
//! actions, and an operation stopped between its change and its repair.

use crate::original::shims::Finite;
include!(concat!(env!("UNDERSTORY_SRC"), "/tree.rs"));

/// An arena as given, whatever it holds.
pub(crate) fn from_parts(root: TileId, revision: u64, nodes: Vec<Option<TileNode>>) -> TileTree {
    TileTree {
        root,
        revision: Revision(revision),
        nodes: nodes.into_iter().map(|node| NodeSlot { node }).collect(),
    }
}

/// Every slot of an arena, empty ones too.
pub(crate) fn slots(tree: &TileTree) -> impl Iterator<Item = Option<&TileNode>> {
    tree.nodes.iter().map(|slot| slot.node.as_ref())
}

pub(crate) fn slot_count(tree: &TileTree) -> usize {
    tree.nodes.len()
}

pub(crate) fn repair(tree: &mut TileTree) -> Vec<RepairAction> {
    tree.repair()
}

/// The operation's change alone: no revision, no repair. Close is document
/// 01's, over `remove_pane`, since the original's own refuses the last pane.
pub(crate) fn change(tree: &mut TileTree, op: TileOp) -> Result<bool, TileError> {
    match op {
        TileOp::ClosePane { pane } => tree.remove_pane(pane).map(|()| true),
        other => tree.apply_inner(other),
    }
}
