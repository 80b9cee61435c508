//! Trees and operations to the original's shapes, and trees back.

use crate::tree::{from_parts, slots};
use crate::value::{self, Kind, SLOTS, Slot};
use crate::{
    Axis, DockTarget, PaneId, Placement, SplitConstraints, SplitNode, TabBarPlacement, TabNode,
    TileId, TileNode, TileOp, TileTree,
};

/// The original's names for our tile ids, which have 32 bits there and 64 here.
pub struct Names {
    /// What stands for our slots: their own numbers in an arena just made.
    pub slots: [TileId; SLOTS],
    /// A bad id (64 or more) is given a number that no tile there can reach.
    bad: Vec<u64>,
}

const FIRST_BAD: u32 = 1_000_000;

/// A tile id that is never alive there.
pub const DEAD: TileId = TileId(FIRST_BAD - 1);

impl Default for Names {
    fn default() -> Self {
        Self { slots: std::array::from_fn(|at| TileId(at as u32)), bad: Vec::new() }
    }
}

impl Names {
    fn there(&mut self, id: value::TileId) -> TileId {
        if let Some(&there) = self.slots.get(id.slot.min(SLOTS as u64) as usize) {
            return there;
        }
        let known = self.bad.iter().position(|&bad| bad == id.slot);
        let place = known.unwrap_or_else(|| {
            self.bad.push(id.slot);
            self.bad.len() - 1
        });
        TileId(FIRST_BAD + place as u32)
    }

    /// Back, for an id that was in the arena handed in.
    pub fn back(&self, id: TileId) -> value::TileId {
        let slot =
            if id.0 < FIRST_BAD { u64::from(id.0) } else { self.bad[(id.0 - FIRST_BAD) as usize] };
        value::TileId { slot }
    }

    /// An arena of 64 slots as the original holds it. No used list is over 16.
    pub fn arena(&mut self, tree: &value::TileTree) -> TileTree {
        let nodes = tree.slots.iter().map(|slot| self.node(slot)).collect();
        from_parts(self.there(tree.root), tree.revision, nodes)
    }

    fn node(&mut self, slot: &Slot) -> Option<TileNode> {
        match slot.kind {
            Kind::Empty => None,
            Kind::Pane(pane) => Some(TileNode::pane(PaneId(pane))),
            Kind::Tabs(bar) => Some(TileNode::Tabs(TabNode {
                panes: slot.panes.entries().iter().map(|&pane| PaneId(pane)).collect(),
                active: slot.active as usize,
                placement: bar_there(bar),
            })),
            Kind::Split(axis) => Some(TileNode::Split(SplitNode {
                axis: axis_there(axis),
                children: slot.children.entries().iter().map(|&id| self.there(id)).collect(),
                shares: slot.shares.entries().to_vec(),
                constraints: SplitConstraints { min_major: slot.minima.entries().to_vec() },
            })),
        }
    }

    pub fn op(&mut self, op: &value::TileOp) -> TileOp {
        match *op {
            value::TileOp::Activate { pane } => TileOp::ActivatePane { pane: PaneId(pane) },
            value::TileOp::Close { pane } => TileOp::ClosePane { pane: PaneId(pane) },
            value::TileOp::SplitPane { pane, axis, new_pane, placement, fraction } => {
                TileOp::SplitPane {
                    pane: PaneId(pane),
                    axis: axis_there(axis),
                    new_pane: PaneId(new_pane),
                    placement: side_there(placement),
                    share: fraction,
                }
            }
            value::TileOp::Move { pane, target } => {
                TileOp::MovePane { pane: PaneId(pane), target: self.target(target) }
            }
            value::TileOp::Reorder { group, pane, index } => TileOp::ReorderTab {
                group: self.there(group),
                pane: PaneId(pane),
                index: index as usize,
            },
        }
    }

    fn target(&mut self, target: value::DockTarget) -> DockTarget {
        match target {
            value::DockTarget::Root => DockTarget::Root,
            value::DockTarget::Beside { tile, axis, placement, ratio } => DockTarget::Split {
                tile: self.there(tile),
                axis: axis_there(axis),
                placement: side_there(placement),
                ratio,
            },
            value::DockTarget::Into { group, index } => DockTarget::TabInto {
                group: self.there(group),
                index: index.map(|index| index as usize),
            },
        }
    }
}

/// Where the tiles go that a call made: the original appends them after the 64
/// slots; document 01 gives the lowest slots that were empty at the start, in
/// order of making, throwaway tiles not counted.
pub struct NewSlots<'a> {
    pub empty_at_start: &'a [usize],
    pub throwaways: usize,
}

impl NewSlots<'_> {
    fn slot(&self, id: TileId) -> usize {
        match (id.0 as usize).checked_sub(SLOTS) {
            None => id.0 as usize,
            Some(made) => self.empty_at_start[made - self.throwaways],
        }
    }

    /// A repaired tree back; repair writes minus zero as plus zero.
    pub fn tree_back(&self, tree: &TileTree) -> value::TileTree {
        let mut out = value::TileTree::blank();
        out.root = self.id(tree.root());
        out.revision = tree.revision().0;
        for (at, node) in slots(tree).enumerate() {
            if let Some(node) = node {
                out.slots[self.slot(TileId(at as u32))] = self.slot_back(node);
            }
        }
        out
    }

    fn id(&self, id: TileId) -> value::TileId {
        value::TileId { slot: self.slot(id) as u64 }
    }

    fn slot_back(&self, node: &TileNode) -> Slot {
        match node {
            TileNode::Pane(pane) => Slot::pane(pane.pane.0),
            TileNode::Tabs(tabs) => {
                let panes: Vec<u64> = tabs.panes.iter().map(|pane| pane.0).collect();
                Slot::tabs(&panes, tabs.active as u64, bar_back(tabs.placement))
            }
            TileNode::Split(split) => {
                let children: Vec<u64> =
                    split.children.iter().map(|&child| self.slot(child) as u64).collect();
                let minima: Vec<f64> =
                    split.constraints.min_major.iter().map(|&minimum| unsigned(minimum)).collect();
                Slot::split(axis_back(split.axis), &children, &split.shares, &minima)
            }
        }
    }
}

/// Document 01 reads minus zero as zero; the original keeps its sign.
pub fn unsigned(number: f64) -> f64 {
    if number == 0.0 { number.abs() } else { number }
}

pub fn axis_there(axis: value::Axis) -> Axis {
    match axis {
        value::Axis::Horizontal => Axis::Horizontal,
        value::Axis::Vertical => Axis::Vertical,
    }
}

pub fn axis_back(axis: Axis) -> value::Axis {
    match axis {
        Axis::Horizontal => value::Axis::Horizontal,
        Axis::Vertical => value::Axis::Vertical,
    }
}

fn side_there(placement: value::Placement) -> Placement {
    match placement {
        value::Placement::Before => Placement::Before,
        value::Placement::After => Placement::After,
    }
}

pub fn bar_there(bar: value::TabBarPlacement) -> TabBarPlacement {
    match bar {
        value::TabBarPlacement::Hidden => TabBarPlacement::Hidden,
        value::TabBarPlacement::Top => TabBarPlacement::Top,
        value::TabBarPlacement::Bottom => TabBarPlacement::Bottom,
        value::TabBarPlacement::Left => TabBarPlacement::Left,
        value::TabBarPlacement::Right => TabBarPlacement::Right,
    }
}

pub fn bar_back(bar: TabBarPlacement) -> value::TabBarPlacement {
    match bar {
        TabBarPlacement::Hidden => value::TabBarPlacement::Hidden,
        TabBarPlacement::Top => value::TabBarPlacement::Top,
        TabBarPlacement::Bottom => value::TabBarPlacement::Bottom,
        TabBarPlacement::Left => value::TabBarPlacement::Left,
        TabBarPlacement::Right => value::TabBarPlacement::Right,
    }
}
