//! What a tree is made of.

use alloc::vec::Vec;

use crate::arena::{Arena, SLOTS, WIDTH, head, kind};
use crate::{PaneId, Rect, Size, TileId};

/// The direction in which a split's children follow each other.
#[derive(Clone, Copy, Debug, PartialEq, Eq, Hash)]
pub enum Axis {
    /// Left to right.
    Horizontal,
    /// Top to bottom.
    Vertical,
}

/// Where the new one stands, seen from what is there.
#[derive(Clone, Copy, Debug, PartialEq, Eq, Hash)]
pub enum Placement {
    /// Left of it, or above.
    Before,
    /// Right of it, or below.
    After,
}

/// Where a group's tab bar stands.
#[derive(Clone, Copy, Debug, PartialEq, Eq, Hash)]
pub enum TabBarPlacement {
    /// There is none.
    Hidden,
    /// Above.
    Top,
    /// Below.
    Bottom,
    /// On the left.
    Left,
    /// On the right.
    Right,
}

impl Axis {
    pub(crate) const fn code(self) -> u64 {
        self as u64
    }

    pub(crate) const fn of_code(code: u64) -> Option<Self> {
        match code {
            0 => Some(Self::Horizontal),
            1 => Some(Self::Vertical),
            _ => None,
        }
    }
}

impl Placement {
    pub(crate) const fn code(self) -> u64 {
        self as u64
    }
}

impl TabBarPlacement {
    pub(crate) const fn code(self) -> u64 {
        self as u64
    }

    pub(crate) const fn of_code(code: u64) -> Option<Self> {
        match code {
            0 => Some(Self::Hidden),
            1 => Some(Self::Top),
            2 => Some(Self::Bottom),
            3 => Some(Self::Left),
            4 => Some(Self::Right),
            _ => None,
        }
    }
}

/// Smallest lengths of a split's children.
#[derive(Clone, Debug, Default, PartialEq)]
pub struct SplitConstraints {
    /// For each child its smallest length; one that is missing is zero.
    pub min_major: Vec<f64>,
}

/// A tile that is one pane.
#[derive(Clone, Debug, PartialEq)]
pub struct PaneNode {
    /// The pane.
    pub pane: PaneId,
}

/// A tab group.
#[derive(Clone, Debug, PartialEq)]
pub struct TabNode {
    /// Its panes, in the order of their tabs.
    pub panes: Vec<PaneId>,
    /// Which of them is shown.
    pub active: usize,
    /// Where the bar stands.
    pub placement: TabBarPlacement,
}

/// A split.
#[derive(Clone, Debug, PartialEq)]
pub struct SplitNode {
    /// Its axis.
    pub axis: Axis,
    /// Its children, in order.
    pub children: Vec<TileId>,
    /// Their shares.
    pub shares: Vec<f64>,
    /// Their smallest lengths.
    pub constraints: SplitConstraints,
}

/// A tile.
#[derive(Clone, Debug, PartialEq)]
pub enum TileNode {
    /// One pane.
    Pane(PaneNode),
    /// A tab group.
    Tabs(TabNode),
    /// A split.
    Split(SplitNode),
}

impl TileNode {
    /// The tile in a slot, if there is one. Lists given too long end after 16.
    pub(crate) fn of_slot(arena: &Arena, id: TileId) -> Option<Self> {
        let slot = slot_of(id)?;
        let head = &arena.heads[slot];
        let ids = in_use(&arena.ids[slot], head[head::IDS]);
        match head[head::KIND] {
            kind::PANE => Some(Self::Pane(PaneNode { pane: PaneId(head[head::PANE]) })),
            kind::GROUP => Some(Self::Tabs(TabNode {
                panes: ids.iter().map(|&pane| PaneId(pane)).collect(),
                active: index_of(head[head::ACTIVE]),
                placement: TabBarPlacement::of_code(head[head::MODE])?,
            })),
            kind::SPLIT => Some(Self::Split(SplitNode {
                axis: Axis::of_code(head[head::MODE])?,
                children: ids.iter().map(|&child| TileId(child)).collect(),
                shares: in_use(&arena.shares[slot], head[head::SHARES]).to_vec(),
                constraints: SplitConstraints {
                    min_major: in_use(&arena.minima[slot], head[head::MINIMA]).to_vec(),
                },
            })),
            _ => None,
        }
    }
}

/// The slot that an id names, if it is one.
pub(crate) fn slot_of(id: TileId) -> Option<usize> {
    usize::try_from(id.0).ok().filter(|&slot| slot < SLOTS)
}

/// The entries of a row that are in use.
pub(crate) fn in_use<T>(row: &[T; WIDTH], length: u64) -> &[T] {
    &row[..length.min(WIDTH as u64) as usize]
}

/// A number of the boundary as an index; one too large for it is the largest.
pub(crate) fn index_of(number: u64) -> usize {
    usize::try_from(number).unwrap_or(usize::MAX)
}

/// What a layout is made for.
#[derive(Clone, Copy, Debug, PartialEq)]
pub struct LayoutInput {
    /// The outer rectangle.
    pub bounds: Rect,
    /// How thick a tab bar is.
    pub tab_bar_thickness: f64,
    /// How thick the handle between two children of a split is.
    pub split_handle_thickness: f64,
    /// The smallest width and height that a split's child is given, where the
    /// split has room for all.
    pub min_pane_size: Size,
}

impl LayoutInput {
    pub(crate) fn numbers(&self) -> [f64; 8] {
        let Rect { x0, y0, x1, y1 } = self.bounds;
        let Size { width, height } = self.min_pane_size;
        [x0, y0, x1, y1, self.tab_bar_thickness, self.split_handle_thickness, width, height]
    }
}
