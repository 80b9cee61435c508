//! Changes of a tree, and how they cross the boundary.

use crate::{Axis, PaneId, Placement, TileId};

/// Where a moved pane goes.
#[derive(Clone, Copy, Debug, PartialEq)]
pub enum DockTarget {
    /// Beside the whole tree, on its right, in a group of its own.
    Root,
    /// Beside a tile.
    Split {
        /// The tile.
        tile: TileId,
        /// The axis on which the two stand.
        axis: Axis,
        /// On which side of the tile.
        placement: Placement,
        /// The part of the tile's share that the pane takes, between 0 and 1.
        ratio: f64,
    },
    /// Into a tab group.
    TabInto {
        /// The group.
        group: TileId,
        /// Its place among the tabs; without one it comes last.
        index: Option<usize>,
    },
}

/// A change.
#[derive(Clone, Debug, PartialEq)]
pub enum TileOp {
    /// Shows a pane of a tab group.
    ActivatePane {
        /// The pane.
        pane: PaneId,
    },
    /// Takes a pane out.
    ClosePane {
        /// The pane.
        pane: PaneId,
    },
    /// Puts a new pane beside one that is there.
    SplitPane {
        /// The pane that is there.
        pane: PaneId,
        /// The axis on which the two stand.
        axis: Axis,
        /// The new pane.
        new_pane: PaneId,
        /// On which side of the other.
        placement: Placement,
        /// The part of the other's share that the new one takes, between 0 and 1.
        share: f64,
    },
    /// Takes a pane out and puts it elsewhere.
    MovePane {
        /// The pane.
        pane: PaneId,
        /// Where it goes.
        target: DockTarget,
    },
    /// Moves a tab within its group.
    ReorderTab {
        /// The group.
        group: TileId,
        /// The pane.
        pane: PaneId,
        /// Its new place.
        index: usize,
    },
}

impl TileOp {
    /// The words and the fraction that the boundary takes.
    #[must_use]
    pub fn words(&self) -> ([u64; 8], f64) {
        match *self {
            Self::ActivatePane { pane } => ([0, pane.0, 0, 0, 0, 0, 0, 0], 0.0),
            Self::ClosePane { pane } => ([1, pane.0, 0, 0, 0, 0, 0, 0], 0.0),
            Self::SplitPane { pane, axis, new_pane, placement, share } => {
                ([2, pane.0, axis.code(), placement.code(), new_pane.0, 0, 0, 0], share)
            }
            Self::MovePane { pane, target } => move_words(pane.0, target),
            Self::ReorderTab { group, pane, index } => {
                ([4, pane.0, 0, 0, group.0, 0, 1, index as u64], 0.0)
            }
        }
    }
}

fn move_words(pane: u64, target: DockTarget) -> ([u64; 8], f64) {
    match target {
        DockTarget::Root => ([3, pane, 0, 0, 0, 0, 0, 0], 0.0),
        DockTarget::Split { tile, axis, placement, ratio } => {
            ([3, pane, axis.code(), placement.code(), tile.0, 1, 0, 0], ratio)
        }
        DockTarget::TabInto { group, index } => {
            let given = u64::from(index.is_some());
            ([3, pane, 0, 0, group.0, 2, given, index.unwrap_or(0) as u64], 0.0)
        }
    }
}
