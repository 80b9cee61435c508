//! The panes of a tree, in reading order.

use crate::PaneId;
use crate::TileId;
use crate::arena::{Arena, SLOTS, head, kind};
use crate::model::{in_use, slot_of};

/// Every pane of a tree: children of splits in order, panes of groups in order.
///
/// Each tile is entered once, so the end is reached in any arena.
#[derive(Clone, Debug)]
pub struct Panes<'a> {
    arena: &'a Arena,
    /// The tiles on the way down, each with the place to look at next.
    way: [(u8, u8); SLOTS],
    depth: usize,
    /// A bit for each slot that was entered.
    entered: u64,
}

impl<'a> Panes<'a> {
    pub(crate) fn new(arena: &'a Arena) -> Self {
        let mut panes = Self { arena, way: [(0, 0); SLOTS], depth: 0, entered: 0 };
        panes.enter(TileId(arena.top[0]));
        panes
    }

    fn enter(&mut self, tile: TileId) {
        if let Some(slot) = slot_of(tile)
            && self.entered & (1 << slot) == 0
        {
            self.entered |= 1 << slot;
            self.way[self.depth] = (slot as u8, 0);
            self.depth += 1;
        }
    }

    /// What stands at a place of a tile: a pane, a tile to enter, or nothing.
    fn at(&self, slot: usize, place: usize) -> Option<Step> {
        let head = &self.arena.heads[slot];
        let ids = in_use(&self.arena.ids[slot], head[head::IDS]);
        match head[head::KIND] {
            kind::PANE => (place == 0).then_some(Step::Pane(PaneId(head[head::PANE]))),
            kind::GROUP => ids.get(place).map(|&pane| Step::Pane(PaneId(pane))),
            kind::SPLIT => ids.get(place).map(|&tile| Step::Tile(TileId(tile))),
            _ => None,
        }
    }
}

enum Step {
    Pane(PaneId),
    Tile(TileId),
}

impl Iterator for Panes<'_> {
    type Item = PaneId;

    fn next(&mut self) -> Option<PaneId> {
        while self.depth > 0 {
            let (slot, place) = self.way[self.depth - 1];
            self.way[self.depth - 1].1 += 1;
            match self.at(slot.into(), place.into()) {
                Some(Step::Pane(pane)) => return Some(pane),
                Some(Step::Tile(tile)) => self.enter(tile),
                None => self.depth -= 1,
            }
        }
        None
    }
}

impl core::iter::FusedIterator for Panes<'_> {}
