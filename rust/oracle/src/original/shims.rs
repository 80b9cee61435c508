//! Plain data for the original's files that are not at hand: ids.rs, model.rs
//! and ops.rs. Every type is read off its uses in the five files that are;
//! docs/DIFFERENCES.md lists each as an assumption.

use core::fmt;

use kurbo::{Point, Rect, Size};

// ids.rs

#[derive(Clone, Copy, Debug, PartialEq, Eq, PartialOrd, Ord, Hash)]
pub struct PaneId(pub u64);

#[derive(Clone, Copy, Debug, PartialEq, Eq, PartialOrd, Ord, Hash)]
pub struct TileId(pub u32);

#[derive(Clone, Copy, Debug, PartialEq, Eq, PartialOrd, Ord, Hash)]
pub struct Revision(pub u64);

impl fmt::Display for PaneId {
    fn fmt(&self, formatter: &mut fmt::Formatter<'_>) -> fmt::Result {
        write!(formatter, "pane {}", self.0)
    }
}

impl fmt::Display for TileId {
    fn fmt(&self, formatter: &mut fmt::Formatter<'_>) -> fmt::Result {
        write!(formatter, "tile {}", self.0)
    }
}

// model.rs

#[derive(Clone, Copy, Debug, PartialEq, Eq)]
pub enum Axis {
    Horizontal,
    Vertical,
}

#[derive(Clone, Copy, Debug, PartialEq, Eq)]
pub enum Placement {
    Before,
    After,
}

#[derive(Clone, Copy, Debug, PartialEq, Eq)]
pub enum TabBarPlacement {
    Hidden,
    Top,
    Bottom,
    Left,
    Right,
}

#[derive(Clone, Debug, Default, PartialEq)]
pub struct SplitConstraints {
    pub min_major: Vec<f64>,
}

#[derive(Clone, Debug, PartialEq)]
pub struct PaneNode {
    pub pane: PaneId,
}

#[derive(Clone, Debug, PartialEq)]
pub struct TabNode {
    pub panes: Vec<PaneId>,
    pub active: usize,
    pub placement: TabBarPlacement,
}

#[derive(Clone, Debug, PartialEq)]
pub struct SplitNode {
    pub axis: Axis,
    pub children: Vec<TileId>,
    pub shares: Vec<f64>,
    pub constraints: SplitConstraints,
}

#[derive(Clone, Debug, PartialEq)]
pub enum TileNode {
    Pane(PaneNode),
    Tabs(TabNode),
    Split(SplitNode),
}

impl TileNode {
    pub fn pane(pane: PaneId) -> Self {
        Self::Pane(PaneNode { pane })
    }

    /// Document 01: a move to the root makes "a Top group with the pane".
    pub fn tabs(panes: Vec<PaneId>) -> Self {
        Self::Tabs(TabNode { panes, active: 0, placement: TabBarPlacement::Top })
    }
}

#[derive(Clone, Copy, Debug, PartialEq)]
pub struct LayoutInput {
    pub bounds: Rect,
    pub tab_bar_thickness: f64,
    pub split_handle_thickness: f64,
    pub min_pane_size: Size,
}

// ops.rs

#[derive(Clone, Copy, Debug, PartialEq)]
pub enum DockTarget {
    Root,
    Split { tile: TileId, axis: Axis, placement: Placement, ratio: f64 },
    TabInto { group: TileId, index: Option<usize> },
}

#[derive(Clone, Debug, PartialEq)]
// MoveTabGroup and SetSplitShares are named by tree.rs and wait (document 01).
#[allow(dead_code)]
pub enum TileOp {
    ActivatePane { pane: PaneId },
    ClosePane { pane: PaneId },
    SplitPane { pane: PaneId, axis: Axis, new_pane: PaneId, placement: Placement, share: f64 },
    MovePane { pane: PaneId, target: DockTarget },
    MoveTabGroup { group: TileId, target: DockTarget },
    ReorderTab { group: TileId, pane: PaneId, index: usize },
    SetSplitShares { split: TileId, shares: Vec<f64> },
}

#[derive(Clone, Debug, PartialEq, Eq)]
pub enum TileError {
    InvalidTileId,
    InvalidPaneId,
    InvalidTarget,
    InvalidOperation,
    DuplicatePane(PaneId),
    CannotCloseLastPane,
    RevisionExhausted,
    UnsupportedSnapshotVersion(u64),
    InvalidTree,
}

/// What kurbo 0.7.1 lacks: the original asks its shapes whether they are finite.
pub trait Finite {
    fn is_finite(&self) -> bool;
}

impl Finite for Point {
    fn is_finite(&self) -> bool {
        self.x.is_finite() && self.y.is_finite()
    }
}

impl Finite for Size {
    fn is_finite(&self) -> bool {
        self.width.is_finite() && self.height.is_finite()
    }
}

impl Finite for Rect {
    fn is_finite(&self) -> bool {
        self.x0.is_finite() && self.y0.is_finite() && self.x1.is_finite() && self.y1.is_finite()
    }
}
