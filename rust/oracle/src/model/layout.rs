//! Layout: a tile's layout calls a split's layout, which calls back.

use super::numbers::{larger, plus_zero};
use super::repair::is_sound;
use super::solver::solve_lengths;
use super::tabs::{split_tab_bar, tab_rect};
use crate::value::{
    Axis, Frame, FrameItemId, Kind, LayoutAnswer, LayoutInput, PaneFrame, Rect, Refusal, Slot,
    SplitChildFrame, SplitHandleFrame, TabBarFrame, TabBarPlacement, TabFrame, TileId, TileTree,
};

/// Coordinates and sizes stay within this.
const LIMIT: f64 = 1_048_576.0;

pub fn layout(tree: &TileTree, input: &LayoutInput) -> LayoutAnswer {
    let refusal = if !is_sound(tree) {
        Some(Refusal::NOT_SOUND)
    } else if !good_input(input) {
        Some(Refusal::BAD_INPUT)
    } else {
        None
    };
    let mut walk = Walk { tree, input: without_minus_zeros(input), frame: Frame::default() };
    if refusal.is_none() {
        walk.lay_tile(tree.root, walk.input.outer);
    }
    LayoutAnswer { refusal, frame: walk.frame }
}

fn good_input(input: &LayoutInput) -> bool {
    let Rect { x0, y0, x1, y1 } = input.outer;
    let sizes = [input.handle, input.bar, input.min_width, input.min_height];
    [x0, y0, x1, y1].iter().all(|at| (-LIMIT..=LIMIT).contains(at))
        && x0 <= x1
        && y0 <= y1
        && sizes.iter().all(|size| (0.0..=LIMIT).contains(size))
}

fn without_minus_zeros(input: &LayoutInput) -> LayoutInput {
    let Rect { x0, y0, x1, y1 } = input.outer;
    LayoutInput {
        outer: Rect { x0: plus_zero(x0), y0: plus_zero(y0), x1: plus_zero(x1), y1: plus_zero(y1) },
        handle: plus_zero(input.handle),
        bar: plus_zero(input.bar),
        min_width: plus_zero(input.min_width),
        min_height: plus_zero(input.min_height),
    }
}

struct Walk<'a> {
    tree: &'a TileTree,
    input: LayoutInput,
    frame: Frame,
}

impl Walk<'_> {
    fn lay_tile(&mut self, id: TileId, rect: Rect) {
        let slot = self.tree.slots[id.slot as usize];
        match slot.kind {
            Kind::Empty => unreachable!("a sound tree has no dead place"),
            Kind::Pane(pane) => {
                self.frame.focus_order.push(pane);
                self.lay_pane(pane, id, rect);
            }
            Kind::Tabs(placement) => self.lay_tabs(id, &slot, placement, rect),
            Kind::Split(axis) => self.lay_split(id, &slot, axis, rect),
        }
    }

    fn lay_pane(&mut self, pane: u64, tile: TileId, rect: Rect) {
        self.frame.panes.push(PaneFrame { pane, tile, rect });
        self.frame.paint_order.push(FrameItemId::Pane(pane));
    }

    fn lay_tabs(&mut self, id: TileId, slot: &Slot, placement: TabBarPlacement, rect: Rect) {
        let panes = slot.panes.entries();
        self.frame.focus_order.extend(panes);
        if panes.is_empty() {
            return;
        }
        let active_pane = panes[slot.active as usize];
        let pane_rect = match split_tab_bar(rect, placement, self.input.bar) {
            None => rect,
            Some((bar, rest)) => {
                self.lay_bar(TabBarFrame { group: id, rect: bar, placement, active_pane });
                self.lay_bar_tabs(id, slot, placement, bar);
                rest
            }
        };
        self.lay_pane(active_pane, id, pane_rect);
    }

    fn lay_bar(&mut self, bar: TabBarFrame) {
        self.frame.tab_bars.push(bar);
        self.frame.paint_order.push(FrameItemId::TabBar(bar.group));
    }

    fn lay_bar_tabs(&mut self, group: TileId, slot: &Slot, placement: TabBarPlacement, bar: Rect) {
        let panes = slot.panes.entries();
        for (at, &pane) in panes.iter().enumerate() {
            let rect = tab_rect(bar, placement, at, panes.len());
            let index = at as u64;
            self.frame.tabs.push(TabFrame {
                group,
                pane,
                rect,
                index,
                active: index == slot.active,
            });
            self.frame.paint_order.push(FrameItemId::Tab { group, pane });
        }
    }

    fn lay_split(&mut self, id: TileId, slot: &Slot, axis: Axis, rect: Rect) {
        let children = slot.children.entries();
        let lengths = self.lengths(slot, axis, rect);
        let handle = self.input.handle;
        let mut cursor = start_along(rect, axis);
        for (at, &child) in children.iter().enumerate() {
            let index = at as u64;
            let end = cursor + lengths[at];
            let child_rect = slice_along(rect, axis, cursor, end);
            self.frame.split_children.push(SplitChildFrame {
                split: id,
                child,
                index,
                rect: child_rect,
            });
            self.lay_tile(child, child_rect);
            cursor = end;
            if at + 1 < children.len() {
                let end = cursor + handle;
                let rect = slice_along(rect, axis, cursor, end);
                self.frame.split_handles.push(SplitHandleFrame {
                    split: id,
                    handle: index,
                    axis,
                    rect,
                });
                self.frame.paint_order.push(FrameItemId::SplitHandle { split: id, handle: index });
                cursor = end;
            }
        }
    }

    fn lengths(&self, slot: &Slot, axis: Axis, rect: Rect) -> Vec<f64> {
        let count = slot.children.entries().len();
        let major = match axis {
            Axis::Horizontal => rect.x1 - rect.x0,
            Axis::Vertical => rect.y1 - rect.y0,
        };
        let handles = self.input.handle * (count - 1) as f64;
        let minima: Vec<f64> = (0..count).map(|at| self.minimum(slot, axis, at)).collect();
        solve_lengths(larger(major - handles, 0.0), slot.shares.entries(), &minima).0
    }

    /// The larger of the axis' default and the child's own, whatever stands under it.
    fn minimum(&self, slot: &Slot, axis: Axis, at: usize) -> f64 {
        let default = match axis {
            Axis::Horizontal => self.input.min_width,
            Axis::Vertical => self.input.min_height,
        };
        slot.minima.entries().get(at).map_or(default, |&own| larger(default, plus_zero(own)))
    }
}

fn start_along(rect: Rect, axis: Axis) -> f64 {
    match axis {
        Axis::Horizontal => rect.x0,
        Axis::Vertical => rect.y0,
    }
}

fn slice_along(rect: Rect, axis: Axis, from: f64, to: f64) -> Rect {
    match axis {
        Axis::Horizontal => Rect { x0: from, x1: to, ..rect },
        Axis::Vertical => Rect { y0: from, y1: to, ..rect },
    }
}
