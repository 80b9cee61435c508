//! The desks that are measured, and what is done to them.

use oracle::value::{
    Axis, DockTarget, LayoutInput, Placement, Reals, Rect, TileId, TileOp, TileTree,
};
use tiling::{PaneId, TileSpec};

/// Columns of groups and panes.
pub struct Desk {
    pub panes: u64,
    /// For each column, how many panes each of its tiles has.
    columns: &'static [&'static [u64]],
}

pub const DESKS: [Desk; 3] = [
    Desk { panes: 4, columns: &[&[2], &[1, 1]] },
    Desk { panes: 16, columns: &[&[3, 1, 1], &[2, 1, 1, 1], &[4, 1, 1]] },
    Desk {
        panes: 48,
        columns: &[
            &[3, 1, 1, 2, 1, 1, 3],
            &[2, 1, 1, 1, 2, 1, 1, 3],
            &[1, 4, 1, 2, 1, 1, 2],
            &[1, 1, 3, 1, 1, 2, 1, 2],
        ],
    },
];

impl Desk {
    pub fn spec(&self) -> TileSpec {
        let mut next = 0;
        let mut tile = |count: u64| {
            let panes: Vec<PaneId> = (1..=count).map(|more| PaneId(next + more)).collect();
            next += count;
            if count == 1 { TileSpec::pane(panes[0]) } else { TileSpec::tabs(panes) }
        };
        let columns = self.columns.iter().map(|tiles| {
            let tiles: Vec<TileSpec> = tiles.iter().map(|&count| tile(count)).collect();
            match <[TileSpec; 1]>::try_from(tiles) {
                Ok([alone]) => alone,
                Err(tiles) => TileSpec::equal_split(tiling::Axis::Vertical, tiles),
            }
        });
        let columns: Vec<TileSpec> = columns.collect();
        let shares: Vec<f64> = (0..columns.len()).map(|at| 1.0 + at as f64 / 2.0).collect();
        let spec = TileSpec::split(tiling::Axis::Horizontal, columns, shares);
        assert_eq!(next, self.panes, "the desk has the panes that it says");
        spec
    }

    /// Each of the five operations; a move to each kind of target. All change
    /// the tree, and speak of its last panes, which are found last.
    pub fn operations(&self, tree: &TileTree) -> Vec<(&'static str, TileOp)> {
        let (first, last) = (1, self.panes);
        let groups: Vec<u64> = (0..64).filter(|&slot| panes_of(tree, slot).len() > 1).collect();
        let group = *groups.last().expect("a desk has a group");
        let tabs = panes_of(tree, group);
        let tile = |slot| TileId { slot };
        let beside = DockTarget::Beside {
            tile: tile(group),
            axis: Axis::Horizontal,
            placement: Placement::Before,
            ratio: 0.4,
        };
        let other = if tabs.contains(&last) { first + 2 } else { last };
        vec![
            ("activate", TileOp::Activate { pane: tabs[1] }),
            ("close", TileOp::Close { pane: last }),
            (
                "split pane",
                TileOp::SplitPane {
                    pane: last,
                    axis: Axis::Vertical,
                    new_pane: 1000,
                    placement: Placement::After,
                    fraction: 0.4,
                },
            ),
            ("move to root", TileOp::Move { pane: last, target: DockTarget::Root }),
            ("move beside", TileOp::Move { pane: other, target: beside }),
            (
                "move into",
                TileOp::Move {
                    pane: other,
                    target: DockTarget::Into { group: tile(group), index: Some(1) },
                },
            ),
            ("reorder", TileOp::Reorder { group: tile(group), pane: tabs[0], index: 1 }),
        ]
    }

    /// The solver's input for as many children as there are panes, at most 16:
    /// some are held at their minimum.
    pub fn solver_input(&self) -> (f64, Reals, Reals) {
        let count = self.panes.min(16);
        let shares: Vec<f64> = (0..count).map(|at| 1.0 + (at % 5) as f64).collect();
        let minima: Vec<f64> = (0..count).map(|at| (at % 3) as f64 * 30.0).collect();
        (count as f64 * 60.0, Reals::of(&shares), Reals::of(&minima))
    }
}

fn panes_of(tree: &TileTree, slot: u64) -> &[u64] {
    tree.get(TileId { slot }).map_or(&[], |tile| tile.panes.entries())
}

pub fn layout_input() -> LayoutInput {
    LayoutInput {
        outer: Rect { x0: 0.0, y0: 0.0, x1: 1920.0, y1: 1080.0 },
        handle: 6.0,
        bar: 28.0,
        min_width: 80.0,
        min_height: 60.0,
    }
}

/// The same tree with faults of each kind that a repair mends.
pub fn damaged(tree: &TileTree) -> TileTree {
    let mut tree = tree.clone();
    let root = tree.root.slot as usize;
    tree.slots[root].shares.len -= 1;
    let last = (0..64).rev().find(|&at| !tree.slots[at].is_empty()).expect("a desk has tiles");
    tree.slots[last].kind = oracle::value::Kind::Pane(1);
    let group = (0..64).find(|&at| tree.slots[at].panes.len > 1).expect("a desk has a group");
    tree.slots[group].active = 99;
    tree
}
