//! Operations and layout inputs as a host of the library writes them; trees,
//! actions and frames as it reads them.

use oracle::value::{self, Frame, Slot};
use tiling::{
    Axis, DockTarget, FrameItemId, LayoutFrame, LayoutInput, PaneId, Placement, Rect, RepairAction,
    Size, TabBarPlacement, TileId, TileNode, TileOp, TileTree,
};

fn axis(axis: value::Axis) -> Axis {
    match axis {
        value::Axis::Horizontal => Axis::Horizontal,
        value::Axis::Vertical => Axis::Vertical,
    }
}

fn side(placement: value::Placement) -> Placement {
    match placement {
        value::Placement::Before => Placement::Before,
        value::Placement::After => Placement::After,
    }
}

pub fn op_here(op: &value::TileOp) -> TileOp {
    match *op {
        value::TileOp::Activate { pane } => TileOp::ActivatePane { pane: PaneId(pane) },
        value::TileOp::Close { pane } => TileOp::ClosePane { pane: PaneId(pane) },
        value::TileOp::SplitPane { pane, axis: along, new_pane, placement, fraction } => {
            TileOp::SplitPane {
                pane: PaneId(pane),
                axis: axis(along),
                new_pane: PaneId(new_pane),
                placement: side(placement),
                share: fraction,
            }
        }
        value::TileOp::Move { pane, target } => {
            TileOp::MovePane { pane: PaneId(pane), target: target_here(target) }
        }
        value::TileOp::Reorder { group, pane, index } => TileOp::ReorderTab {
            group: TileId(group.slot),
            pane: PaneId(pane),
            index: usize::try_from(index).unwrap_or(usize::MAX),
        },
    }
}

fn target_here(target: value::DockTarget) -> DockTarget {
    match target {
        value::DockTarget::Root => DockTarget::Root,
        value::DockTarget::Beside { tile, axis: along, placement, ratio } => DockTarget::Split {
            tile: TileId(tile.slot),
            axis: axis(along),
            placement: side(placement),
            ratio,
        },
        value::DockTarget::Into { group, index } => DockTarget::TabInto {
            group: TileId(group.slot),
            index: index.map(|index| usize::try_from(index).unwrap_or(usize::MAX)),
        },
    }
}

pub fn input_here(input: &value::LayoutInput) -> LayoutInput {
    let outer = input.outer;
    LayoutInput {
        bounds: Rect::new(outer.x0, outer.y0, outer.x1, outer.y1),
        tab_bar_thickness: input.bar,
        split_handle_thickness: input.handle,
        min_pane_size: Size::new(input.min_width, input.min_height),
    }
}

fn axis_back(axis: Axis) -> value::Axis {
    match axis {
        Axis::Horizontal => value::Axis::Horizontal,
        Axis::Vertical => value::Axis::Vertical,
    }
}

fn bar_back(bar: TabBarPlacement) -> value::TabBarPlacement {
    match bar {
        TabBarPlacement::Hidden => value::TabBarPlacement::Hidden,
        TabBarPlacement::Top => value::TabBarPlacement::Top,
        TabBarPlacement::Bottom => value::TabBarPlacement::Bottom,
        TabBarPlacement::Left => value::TabBarPlacement::Left,
        TabBarPlacement::Right => value::TabBarPlacement::Right,
    }
}

fn id_back(id: TileId) -> value::TileId {
    value::TileId { slot: id.0 }
}

fn rect_back(rect: Rect) -> value::Rect {
    value::Rect { x0: rect.x0, y0: rect.y0, x1: rect.x1, y1: rect.y1 }
}

/// A sound tree, tile by tile.
pub fn tree_back(tree: &TileTree) -> value::TileTree {
    let mut out = value::TileTree::blank();
    out.root = id_back(tree.root());
    out.revision = tree.revision().0;
    for (at, slot) in out.slots.iter_mut().enumerate() {
        if let Some(node) = tree.node(TileId(at as u64)) {
            *slot = slot_back(&node);
        }
    }
    out
}

fn slot_back(node: &TileNode) -> Slot {
    match node {
        TileNode::Pane(pane) => Slot::pane(pane.pane.0),
        TileNode::Tabs(tabs) => {
            let panes: Vec<u64> = tabs.panes.iter().map(|pane| pane.0).collect();
            Slot::tabs(&panes, tabs.active as u64, bar_back(tabs.placement))
        }
        TileNode::Split(split) => {
            let children: Vec<u64> = split.children.iter().map(|child| child.0).collect();
            let minima = &split.constraints.min_major;
            Slot::split(axis_back(split.axis), &children, &split.shares, minima)
        }
    }
}

pub fn action_back(action: &RepairAction) -> value::Action {
    match *action {
        RepairAction::RemovedInvalidNode(it) => value::Action::RemovedInvalidNode(id_back(it)),
        RepairAction::RepairedActiveTab(it) => value::Action::RepairedActiveTab(id_back(it)),
        RepairAction::RepairedShares(it) => value::Action::RepairedShares(id_back(it)),
        RepairAction::RepairedConstraints(it) => value::Action::RepairedConstraints(id_back(it)),
        RepairAction::CollapsedSplit(it) => value::Action::CollapsedSplit(id_back(it)),
        RepairAction::RemovedDuplicatePane { pane, tile } => {
            value::Action::RemovedDuplicatePane { pane: pane.0, tile: id_back(tile) }
        }
    }
}

pub fn frame_back(frame: &LayoutFrame) -> Frame {
    let mut out = Frame::default();
    for it in frame.panes() {
        let (pane, tile, rect) = (it.pane.0, id_back(it.tile), rect_back(it.rect));
        out.panes.push(value::PaneFrame { pane, tile, rect });
    }
    for it in frame.tab_bars() {
        let (group, rect) = (id_back(it.group), rect_back(it.rect));
        let placement = bar_back(it.placement);
        let active_pane = it.active_pane.expect("a bar stands over an active pane").0;
        out.tab_bars.push(value::TabBarFrame { group, rect, placement, active_pane });
    }
    for it in frame.tabs() {
        let (group, pane, rect) = (id_back(it.group), it.pane.0, rect_back(it.rect));
        let (index, active) = (it.index as u64, it.active);
        out.tabs.push(value::TabFrame { group, pane, rect, index, active });
    }
    for it in frame.split_children() {
        let (split, child, index) = (id_back(it.split), id_back(it.child), it.index as u64);
        let rect = rect_back(it.rect);
        out.split_children.push(value::SplitChildFrame { split, child, index, rect });
    }
    for it in frame.split_handles() {
        let (split, handle, axis) = (id_back(it.split), it.handle as u64, axis_back(it.axis));
        let rect = rect_back(it.rect);
        out.split_handles.push(value::SplitHandleFrame { split, handle, axis, rect });
    }
    out.focus_order = frame.focus_order().iter().map(|pane| pane.0).collect();
    out.paint_order = frame.paint_order().iter().map(item_back).collect();
    out
}

fn item_back(item: &FrameItemId) -> value::FrameItemId {
    match *item {
        FrameItemId::Pane(pane) => value::FrameItemId::Pane(pane.0),
        FrameItemId::TabBar(group) => value::FrameItemId::TabBar(id_back(group)),
        FrameItemId::Tab { group, pane } => {
            value::FrameItemId::Tab { group: id_back(group), pane: pane.0 }
        }
        FrameItemId::SplitHandle { split, handle } => {
            value::FrameItemId::SplitHandle { split: id_back(split), handle: handle as u64 }
        }
    }
}
