//! The tree.

use alloc::boxed::Box;
use alloc::vec::Vec;
use core::fmt;

use crate::arena::{Arena, head, kind};
use crate::boundary;
use crate::buffer::FrameBuffer;
use crate::error::answer;
use crate::ffi;
use crate::panes::Panes;
use crate::repair::{self, RepairAction};
use crate::{
    LayoutFrame, LayoutInput, PaneId, Revision, TileError, TileId, TileNode, TileOp, TileSpec,
};

/// Splits, tab groups and panes.
///
/// Make one with [`TileTree::single_pane`] or [`TileTree::from_spec`], change it
/// with [`TileTree::apply`], and ask for a frame with [`TileTree::layout`].
#[derive(Clone)]
pub struct TileTree {
    arena: Box<Arena>,
}

impl TileTree {
    /// A tree of one pane.
    #[must_use]
    pub fn single_pane(pane: PaneId) -> Self {
        let mut arena = Arena::boxed();
        arena.heads[0][head::KIND] = kind::PANE;
        arena.heads[0][head::PANE] = pane.0;
        Self { arena }
    }

    /// The tree that a spec describes, tiles numbered in preorder.
    ///
    /// # Errors
    ///
    /// 2 and 3 for a spec that passes the limits, 10 and 12 to 18 for one that
    /// makes no sense.
    pub fn from_spec(spec: TileSpec) -> Result<Self, TileError> {
        Self::from_table(&spec.table())
    }

    /// The tree of a spec's table (document 01, "Spec bytes").
    ///
    /// # Errors
    ///
    /// 1 for bytes that are no table, and as [`TileTree::from_spec`].
    pub fn from_table(bytes: &[u8]) -> Result<Self, TileError> {
        let mut out = [0; 4];
        let (arena, number) = ffi::new_from_spec(bytes, &mut out);
        answer(number, &out).map(|()| Self { arena })
    }

    /// An arena as it is, sound or not.
    #[must_use]
    pub fn from_arena(arena: Box<Arena>) -> Self {
        Self { arena }
    }

    /// The tree as numbers.
    #[must_use]
    pub fn arena(&self) -> &Arena {
        &self.arena
    }

    /// Every pane in reading order, hidden ones too.
    #[must_use]
    pub fn panes(&self) -> Panes<'_> {
        Panes::new(&self.arena)
    }

    /// The root's tile id.
    #[must_use]
    pub fn root(&self) -> TileId {
        TileId(self.arena.top[0])
    }

    /// How many changes the tree has seen.
    #[must_use]
    pub fn revision(&self) -> Revision {
        Revision(self.arena.top[1])
    }

    /// A tile, by value: the tree holds numbers, and no nodes to lend.
    #[must_use]
    pub fn node(&self, id: TileId) -> Option<TileNode> {
        TileNode::of_slot(&self.arena, id)
    }

    /// Changes the tree, or leaves it as it was.
    ///
    /// # Errors
    ///
    /// 2 to 4 and 6 to 11, in the order that document 01 gives them.
    pub fn apply(&mut self, op: TileOp) -> Result<(), TileError> {
        let (words, fraction) = op.words();
        let mut out = [0; 4];
        let number = boundary::apply(&mut self.arena, &words, fraction, &mut out);
        answer(number, &out)
    }

    /// Makes the tree sound and lists what was done; trees from specs, changed
    /// by [`TileTree::apply`] alone, are sound already.
    ///
    /// # Errors
    ///
    /// 2 and 3; the tree is left as it was.
    pub fn repair(&mut self) -> Result<Vec<RepairAction>, TileError> {
        repair::repair(&mut self.arena)
    }

    /// Whether a repair would have nothing to do.
    #[must_use]
    pub fn is_sound(&self) -> bool {
        boundary::is_sound(&self.arena) == 0
    }

    /// Where everything stands.
    ///
    /// # Errors
    ///
    /// 4 for a tree that is not sound, then 5 for input out of range.
    pub fn layout(&self, input: LayoutInput) -> Result<LayoutFrame, TileError> {
        let mut buffer = FrameBuffer::new();
        self.layout_into(input, &mut buffer)?;
        Ok(buffer.to_frame())
    }

    /// As [`TileTree::layout`], into room that is there already.
    ///
    /// # Errors
    ///
    /// As [`TileTree::layout`]; the buffer is empty then.
    pub fn layout_into(
        &self,
        input: LayoutInput,
        buffer: &mut FrameBuffer,
    ) -> Result<(), TileError> {
        buffer.fill(&self.arena, &input)
    }
}

impl fmt::Debug for TileTree {
    fn fmt(&self, formatter: &mut fmt::Formatter<'_>) -> fmt::Result {
        let tiles = (0..crate::arena::SLOTS as u64).filter_map(|slot| {
            let id = TileId(slot);
            self.node(id).map(|node| (id, node))
        });
        formatter
            .debug_struct("TileTree")
            .field("root", &self.root())
            .field("revision", &self.revision())
            .field("tiles", &tiles.collect::<Vec<_>>())
            .finish()
    }
}
