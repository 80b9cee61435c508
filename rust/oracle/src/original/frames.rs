//! Layout inputs to the original's shape, and frames back.

use super::convert::{axis_back, bar_back, unsigned};
use crate::value::{self, Frame};
use crate::{FrameItemId, LayoutFrame, LayoutInput, Rect, Size, TileId};

/// Document 01's ranges; NaN is in none.
pub fn input_is_good(input: &value::LayoutInput) -> bool {
    let limit = f64::from(1 << 20);
    let outer = input.outer;
    let coordinates = [outer.x0, outer.y0, outer.x1, outer.y1];
    let sizes = [input.handle, input.bar, input.min_width, input.min_height];
    coordinates.iter().all(|at| at.abs() <= limit)
        && sizes.iter().all(|&size| size >= 0.0 && size <= limit)
        && outer.x1 >= outer.x0
        && outer.y1 >= outer.y0
}

pub fn input_there(input: &value::LayoutInput) -> LayoutInput {
    let outer = input.outer;
    LayoutInput {
        bounds: Rect::new(
            unsigned(outer.x0),
            unsigned(outer.y0),
            unsigned(outer.x1),
            unsigned(outer.y1),
        ),
        tab_bar_thickness: unsigned(input.bar),
        split_handle_thickness: unsigned(input.handle),
        min_pane_size: Size::new(unsigned(input.min_width), unsigned(input.min_height)),
    }
}

fn id(id: TileId) -> value::TileId {
    value::TileId { slot: u64::from(id.0) }
}

fn rect(rect: Rect) -> value::Rect {
    value::Rect { x0: rect.x0, y0: rect.y0, x1: rect.x1, y1: rect.y1 }
}

/// The seven lists. The fields that document 01 leaves out say nothing more,
/// and the assertions below are what shows it.
pub fn frame_back(frame: &LayoutFrame) -> Frame {
    assert!(frame.panes.iter().all(|pane| pane.clip == pane.rect && pane.active));
    assert!(frame.tab_bars.iter().all(|bar| bar.viewport == bar.rect));
    Frame {
        panes: frame.panes.iter().map(pane).collect(),
        tab_bars: frame.tab_bars.iter().map(tab_bar).collect(),
        tabs: frame.tabs.iter().map(tab).collect(),
        split_children: frame.split_children.iter().map(split_child).collect(),
        split_handles: frame.split_handles.iter().map(split_handle).collect(),
        focus_order: frame.focus_order.iter().map(|pane| pane.0).collect(),
        paint_order: frame.paint_order.iter().map(item).collect(),
    }
}

fn pane(pane: &crate::PaneFrame) -> value::PaneFrame {
    value::PaneFrame { pane: pane.pane.0, tile: id(pane.tile), rect: rect(pane.rect) }
}

fn tab_bar(bar: &crate::TabBarFrame) -> value::TabBarFrame {
    value::TabBarFrame {
        group: id(bar.group),
        rect: rect(bar.rect),
        placement: bar_back(bar.placement),
        active_pane: bar.active_pane.expect("a bar stands over an active pane").0,
    }
}

fn tab(tab: &crate::TabFrame) -> value::TabFrame {
    value::TabFrame {
        group: id(tab.group),
        pane: tab.pane.0,
        rect: rect(tab.rect),
        index: tab.index as u64,
        active: tab.active,
    }
}

fn split_child(child: &crate::SplitChildFrame) -> value::SplitChildFrame {
    value::SplitChildFrame {
        split: id(child.split),
        child: id(child.child),
        index: child.index as u64,
        rect: rect(child.rect),
    }
}

fn split_handle(handle: &crate::SplitHandleFrame) -> value::SplitHandleFrame {
    value::SplitHandleFrame {
        split: id(handle.split),
        handle: handle.handle as u64,
        axis: axis_back(handle.axis),
        rect: rect(handle.rect),
    }
}

fn item(item: &FrameItemId) -> value::FrameItemId {
    match *item {
        FrameItemId::Pane(pane) => value::FrameItemId::Pane(pane.0),
        FrameItemId::TabBar(group) => value::FrameItemId::TabBar(id(group)),
        FrameItemId::Tab { group, pane } => {
            value::FrameItemId::Tab { group: id(group), pane: pane.0 }
        }
        FrameItemId::SplitHandle { split, handle } => {
            value::FrameItemId::SplitHandle { split: id(split), handle: handle as u64 }
        }
        FrameItemId::SplitChild { .. } => unreachable!("layout paints no split child"),
    }
}
