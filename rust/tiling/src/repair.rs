//! What a repair did.

use alloc::vec::Vec;

use crate::arena::Arena;
use crate::error::answer;
use crate::ffi::Report;
use crate::{PaneId, TileError, TileId};

/// One thing that a repair did.
#[derive(Clone, Copy, Debug, PartialEq, Eq, Hash)]
pub enum RepairAction {
    /// A tile, or an id that names none, is gone.
    RemovedInvalidNode(TileId),
    /// A group's active index was past its end.
    RepairedActiveTab(TileId),
    /// A split's shares were not all good, or not as many as its children.
    RepairedShares(TileId),
    /// A split's minima were not all good, or too many.
    RepairedConstraints(TileId),
    /// A split went, with no child or one left, or melted into its parent.
    CollapsedSplit(TileId),
    /// A pane stood in a second place.
    RemovedDuplicatePane {
        /// The pane.
        pane: PaneId,
        /// The tile from which it was taken.
        tile: TileId,
    },
}

impl RepairAction {
    fn of_row(&[what, tile, pane]: &[u64; 3]) -> Self {
        let tile = TileId(tile);
        match what {
            0 => Self::RemovedInvalidNode(tile),
            1 => Self::RepairedActiveTab(tile),
            2 => Self::RepairedShares(tile),
            3 => Self::RepairedConstraints(tile),
            4 => Self::CollapsedSplit(tile),
            _ => Self::RemovedDuplicatePane { pane: PaneId(pane), tile },
        }
    }
}

/// Repairs, and lists what was done.
pub(crate) fn repair(arena: &mut Arena) -> Result<Vec<RepairAction>, TileError> {
    let mut report = Report::new();
    let mut out = [0; 4];
    let number = report.fill(arena, &mut out);
    answer(number, &out)?;
    Ok(report.rows().iter().map(RepairAction::of_row).collect())
}
