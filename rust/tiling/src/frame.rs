//! A layout's answer: seven lists, read out of the stream that the library
//! writes.

use alloc::vec::Vec;

use crate::model::index_of;
use crate::{Axis, PaneId, Rect, Revision, TabBarPlacement, TileId};

/// A visible pane.
#[derive(Clone, Copy, Debug, PartialEq)]
pub struct PaneFrame {
    /// The pane.
    pub pane: PaneId,
    /// Its tile: itself, or its group.
    pub tile: TileId,
    /// Where it stands.
    pub rect: Rect,
}

/// A visible tab bar.
#[derive(Clone, Copy, Debug, PartialEq)]
pub struct TabBarFrame {
    /// Its group.
    pub group: TileId,
    /// Where it stands.
    pub rect: Rect,
    /// On which side of the group.
    pub placement: TabBarPlacement,
    /// The pane that the group shows: there always is one.
    pub active_pane: Option<PaneId>,
}

/// A tab of a visible bar.
#[derive(Clone, Copy, Debug, PartialEq)]
pub struct TabFrame {
    /// Its group.
    pub group: TileId,
    /// Its pane.
    pub pane: PaneId,
    /// Where it stands.
    pub rect: Rect,
    /// Its place in the group.
    pub index: usize,
    /// Whether its pane is the one shown.
    pub active: bool,
}

/// A split's child.
#[derive(Clone, Copy, Debug, PartialEq)]
pub struct SplitChildFrame {
    /// The split.
    pub split: TileId,
    /// The child.
    pub child: TileId,
    /// Its place in the split.
    pub index: usize,
    /// Where it stands.
    pub rect: Rect,
}

/// The handle between two children of a split.
#[derive(Clone, Copy, Debug, PartialEq)]
pub struct SplitHandleFrame {
    /// The split.
    pub split: TileId,
    /// The place of the child before it.
    pub handle: usize,
    /// The split's axis.
    pub axis: Axis,
    /// Where it stands.
    pub rect: Rect,
}

/// What is painted.
#[derive(Clone, Copy, Debug, PartialEq, Eq, Hash)]
pub enum FrameItemId {
    /// A pane.
    Pane(PaneId),
    /// A tab.
    Tab {
        /// Its group.
        group: TileId,
        /// Its pane.
        pane: PaneId,
    },
    /// A group's tab bar.
    TabBar(TileId),
    /// A handle of a split.
    SplitHandle {
        /// The split.
        split: TileId,
        /// Its place.
        handle: usize,
    },
}

/// One entry of a frame, in the order in which the layout makes them.
#[derive(Clone, Copy, Debug, PartialEq)]
pub enum FrameEntry {
    /// A pane of the focus order.
    Focus(PaneId),
    /// A visible pane.
    Pane(PaneFrame),
    /// A tab bar.
    TabBar(TabBarFrame),
    /// A tab.
    Tab(TabFrame),
    /// A split's child.
    SplitChild(SplitChildFrame),
    /// A split's handle.
    SplitHandle(SplitHandleFrame),
}

impl FrameEntry {
    pub(crate) fn of_row(row: &[u64; 5], rect: &[f64; 4]) -> Self {
        let [kind, tile, second, index, mode] = *row;
        let (tile, pane, rect) = (TileId(tile), PaneId(second), Rect::from(*rect));
        let index = index_of(index);
        match kind {
            0 => Self::Focus(pane),
            1 => Self::Pane(PaneFrame { pane, tile, rect }),
            2 => {
                let placement = TabBarPlacement::of_code(mode).unwrap_or(TabBarPlacement::Right);
                let active_pane = Some(pane);
                Self::TabBar(TabBarFrame { group: tile, rect, placement, active_pane })
            }
            3 => Self::Tab(TabFrame { group: tile, pane, rect, index, active: mode != 0 }),
            4 => {
                let child = TileId(second);
                Self::SplitChild(SplitChildFrame { split: tile, child, index, rect })
            }
            _ => {
                let axis = Axis::of_code(mode).unwrap_or(Axis::Vertical);
                Self::SplitHandle(SplitHandleFrame { split: tile, handle: index, axis, rect })
            }
        }
    }

    /// What a painter is told of it; the focus order and a split's children
    /// are not painted.
    #[must_use]
    pub fn painted(&self) -> Option<FrameItemId> {
        match *self {
            Self::Focus(_) | Self::SplitChild(_) => None,
            Self::Pane(it) => Some(FrameItemId::Pane(it.pane)),
            Self::TabBar(it) => Some(FrameItemId::TabBar(it.group)),
            Self::Tab(it) => Some(FrameItemId::Tab { group: it.group, pane: it.pane }),
            Self::SplitHandle(it) => {
                Some(FrameItemId::SplitHandle { split: it.split, handle: it.handle })
            }
        }
    }
}

/// The seven lists of a layout.
#[derive(Clone, Debug, PartialEq)]
pub struct LayoutFrame {
    revision: Revision,
    panes: Vec<PaneFrame>,
    tab_bars: Vec<TabBarFrame>,
    tabs: Vec<TabFrame>,
    split_children: Vec<SplitChildFrame>,
    split_handles: Vec<SplitHandleFrame>,
    focus_order: Vec<PaneId>,
    paint_order: Vec<FrameItemId>,
}

impl LayoutFrame {
    /// The entries of a stream, sorted. They are counted first, so that no list
    /// has to grow.
    pub(crate) fn of_stream(revision: Revision, items: &[[u64; 5]], rects: &[[f64; 4]]) -> Self {
        let mut counts = [0; 6];
        for row in items {
            counts[index_of(row[0]).min(5)] += 1;
        }
        let [focus, panes, bars, tabs, children, handles] = counts;
        let mut frame = Self {
            revision,
            panes: Vec::with_capacity(panes),
            tab_bars: Vec::with_capacity(bars),
            tabs: Vec::with_capacity(tabs),
            split_children: Vec::with_capacity(children),
            split_handles: Vec::with_capacity(handles),
            focus_order: Vec::with_capacity(focus),
            paint_order: Vec::with_capacity(panes + bars + tabs + handles),
        };
        for (row, rect) in items.iter().zip(rects) {
            frame.push(FrameEntry::of_row(row, rect));
        }
        frame
    }

    fn push(&mut self, entry: FrameEntry) {
        self.paint_order.extend(entry.painted());
        match entry {
            FrameEntry::Focus(it) => self.focus_order.push(it),
            FrameEntry::Pane(it) => self.panes.push(it),
            FrameEntry::TabBar(it) => self.tab_bars.push(it),
            FrameEntry::Tab(it) => self.tabs.push(it),
            FrameEntry::SplitChild(it) => self.split_children.push(it),
            FrameEntry::SplitHandle(it) => self.split_handles.push(it),
        }
    }

    /// The tree's revision.
    #[must_use]
    pub const fn revision(&self) -> Revision {
        self.revision
    }

    /// The visible panes.
    #[must_use]
    pub fn panes(&self) -> &[PaneFrame] {
        &self.panes
    }

    /// The visible tab bars.
    #[must_use]
    pub fn tab_bars(&self) -> &[TabBarFrame] {
        &self.tab_bars
    }

    /// The tabs of the visible bars.
    #[must_use]
    pub fn tabs(&self) -> &[TabFrame] {
        &self.tabs
    }

    /// The children of the splits.
    #[must_use]
    pub fn split_children(&self) -> &[SplitChildFrame] {
        &self.split_children
    }

    /// The handles of the splits.
    #[must_use]
    pub fn split_handles(&self) -> &[SplitHandleFrame] {
        &self.split_handles
    }

    /// Every pane in reading order, hidden ones too.
    #[must_use]
    pub fn focus_order(&self) -> &[PaneId] {
        &self.focus_order
    }

    /// What is painted, in order.
    #[must_use]
    pub fn paint_order(&self) -> &[FrameItemId] {
        &self.paint_order
    }
}
