//! The original over many operations in one arena of its own, which only ever
//! grows, beside a tree of ours that takes emptied slots again. Nothing is
//! handed over on the way but the operations: the two are held side by side by
//! shape, and the names of their tiles are learned from that.

use super::convert::{DEAD, Names, axis_there, bar_there};
use crate::tree::slot_count;
use crate::value::{self, Kind, SLOTS, TileOp};
use crate::{TileId, TileNode, TileTree};

pub struct History {
    arena: TileTree,
    names: Names,
}

impl History {
    pub fn new(tree: &value::TileTree) -> Self {
        let mut names = Names::default();
        let arena = names.arena(tree);
        Self { arena, names }
    }

    /// The original's own `apply`; true if it accepts.
    pub fn apply(&mut self, op: &TileOp) -> bool {
        let op = self.names.op(op);
        self.arena.apply(op).is_ok()
    }

    /// How far the arena has grown.
    pub fn slots(&self) -> usize {
        slot_count(&self.arena)
    }

    /// True if both trees have one shape, the same panes and the same numbers.
    /// The names of the tiles are learned anew; slots of ours that no tile
    /// stands in are dead.
    pub fn is_like(&mut self, tree: &value::TileTree) -> bool {
        let mut slots = [DEAD; SLOTS];
        let like = self.tile_is_like(self.arena.root(), tree, tree.root, &mut slots);
        let occupied = tree.slots.iter().map(|slot| !slot.is_empty());
        let all_met = occupied.zip(&slots).all(|(occupied, name)| occupied == (*name != DEAD));
        self.names.slots = slots;
        like && all_met && self.arena.revision().0 == tree.revision
    }

    fn tile_is_like(
        &self,
        there: TileId,
        tree: &value::TileTree,
        here: value::TileId,
        slots: &mut [TileId; SLOTS],
    ) -> bool {
        let (Some(node), Some(slot)) = (self.arena.node(there), tree.get(here)) else {
            return false;
        };
        slots[here.slot as usize] = there;
        match (node, slot.kind) {
            (TileNode::Pane(pane), Kind::Pane(other)) => pane.pane.0 == other,
            (TileNode::Tabs(tabs), Kind::Tabs(bar)) => {
                tabs.placement == bar_there(bar)
                    && tabs.active as u64 == slot.active
                    && tabs.panes.iter().map(|pane| pane.0).eq(slot.panes.entries().iter().copied())
            }
            (TileNode::Split(split), Kind::Split(axis)) => {
                let children = split.children.iter().zip(slot.children.entries());
                split.axis == axis_there(axis)
                    && split.children.len() as u64 == slot.children.len
                    && split.shares == slot.shares.entries()
                    && split.constraints.min_major == slot.minima.entries()
                    && children
                        .into_iter()
                        .all(|(&there, &here)| self.tile_is_like(there, tree, here, slots))
            }
            _ => false,
        }
    }
}
