//! A frame that is written again and again in the same place.

use core::fmt;

use crate::arena::Arena;
use crate::error::answer;
use crate::ffi::Stream;
use crate::frame::FrameEntry;
use crate::{
    FrameItemId, LayoutFrame, LayoutInput, PaneFrame, PaneId, Revision, SplitChildFrame,
    SplitHandleFrame, TabBarFrame, TabFrame, TileError,
};

/// Room for a frame, for hosts that lay out often: nothing is allocated by
/// [`TileTree::layout_into`](crate::TileTree::layout_into).
///
/// It holds the last layout's entries, none after a refused one.
pub struct FrameBuffer {
    stream: Stream,
    revision: Revision,
}

impl FrameBuffer {
    /// Room for any frame, 166 KB.
    #[must_use]
    pub fn new() -> Self {
        Self { stream: Stream::new(), revision: Revision(0) }
    }

    pub(crate) fn fill(&mut self, arena: &Arena, input: &LayoutInput) -> Result<(), TileError> {
        let mut out = [0; 4];
        let number = self.stream.fill(arena, &input.numbers(), &mut out);
        self.revision = Revision(out[3]);
        answer(number, &out)
    }

    /// The revision of the tree that was laid out.
    #[must_use]
    pub const fn revision(&self) -> Revision {
        self.revision
    }

    /// How many entries there are.
    #[must_use]
    pub fn len(&self) -> usize {
        self.stream.items().len()
    }

    /// Whether there are none.
    #[must_use]
    pub fn is_empty(&self) -> bool {
        self.len() == 0
    }

    /// Every entry, in the order in which the layout makes them.
    pub fn entries(&self) -> impl ExactSizeIterator<Item = FrameEntry> + '_ {
        let rows = self.stream.items().iter().zip(self.stream.rects());
        rows.map(|(row, rect)| FrameEntry::of_row(row, rect))
    }

    /// The visible panes.
    pub fn panes(&self) -> impl Iterator<Item = PaneFrame> + '_ {
        self.entries().filter_map(|entry| match entry {
            FrameEntry::Pane(it) => Some(it),
            _ => None,
        })
    }

    /// The visible tab bars.
    pub fn tab_bars(&self) -> impl Iterator<Item = TabBarFrame> + '_ {
        self.entries().filter_map(|entry| match entry {
            FrameEntry::TabBar(it) => Some(it),
            _ => None,
        })
    }

    /// The tabs of the visible bars.
    pub fn tabs(&self) -> impl Iterator<Item = TabFrame> + '_ {
        self.entries().filter_map(|entry| match entry {
            FrameEntry::Tab(it) => Some(it),
            _ => None,
        })
    }

    /// The children of the splits.
    pub fn split_children(&self) -> impl Iterator<Item = SplitChildFrame> + '_ {
        self.entries().filter_map(|entry| match entry {
            FrameEntry::SplitChild(it) => Some(it),
            _ => None,
        })
    }

    /// The handles of the splits.
    pub fn split_handles(&self) -> impl Iterator<Item = SplitHandleFrame> + '_ {
        self.entries().filter_map(|entry| match entry {
            FrameEntry::SplitHandle(it) => Some(it),
            _ => None,
        })
    }

    /// Every pane in reading order, hidden ones too.
    pub fn focus_order(&self) -> impl Iterator<Item = PaneId> + '_ {
        self.entries().filter_map(|entry| match entry {
            FrameEntry::Focus(it) => Some(it),
            _ => None,
        })
    }

    /// What is painted, in order.
    pub fn paint_order(&self) -> impl Iterator<Item = FrameItemId> + '_ {
        self.entries().filter_map(|entry| entry.painted())
    }

    /// The seven lists by themselves.
    #[must_use]
    pub fn to_frame(&self) -> LayoutFrame {
        LayoutFrame::of_stream(self.revision, self.stream.items(), self.stream.rects())
    }
}

impl Default for FrameBuffer {
    fn default() -> Self {
        Self::new()
    }
}

impl fmt::Debug for FrameBuffer {
    fn fmt(&self, formatter: &mut fmt::Formatter<'_>) -> fmt::Result {
        formatter.debug_list().entries(self.entries()).finish()
    }
}
