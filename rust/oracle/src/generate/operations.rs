//! Operations on a given tree: most of them name what is there.

use super::reals;
use super::rng::Rng;
use crate::value::{Axis, DockTarget, Kind, Placement, SLOTS, TileId, TileOp, TileTree};

/// Some panes have large ids, so that all 64 bits are used.
const FAR_PANES: [u64; 4] = [u64::MAX, 1 << 63, 1 << 32, (1 << 32) - 1];

pub fn operation(rng: &mut Rng, tree: &TileTree) -> TileOp {
    match rng.below(20) {
        0..=2 => TileOp::Activate { pane: some_pane(rng, tree) },
        3..=5 => TileOp::Close { pane: some_pane(rng, tree) },
        6..=10 => split_pane(rng, tree),
        11..=16 => TileOp::Move { pane: some_pane(rng, tree), target: target(rng, tree) },
        _ => reorder(rng, tree),
    }
}

/// Operations that mostly make the tree larger.
pub fn growing_operation(rng: &mut Rng, tree: &TileTree) -> TileOp {
    match rng.below(8) {
        0 => operation(rng, tree),
        1 | 2 => TileOp::Move { pane: some_pane(rng, tree), target: target(rng, tree) },
        _ => split_pane(rng, tree),
    }
}

fn split_pane(rng: &mut Rng, tree: &TileTree) -> TileOp {
    TileOp::SplitPane {
        pane: some_pane(rng, tree),
        axis: axis(rng),
        new_pane: if rng.once_in(16) { some_pane(rng, tree) } else { fresh_pane(rng, tree) },
        placement: side(rng),
        fraction: fraction(rng),
    }
}

fn reorder(rng: &mut Rng, tree: &TileTree) -> TileOp {
    let groups = tiles_where(tree, |kind| matches!(kind, Kind::Tabs(_)));
    if groups.is_empty() || rng.once_in(8) {
        let group = some_tile(rng, tree);
        return TileOp::Reorder { group, pane: some_pane(rng, tree), index: index(rng) };
    }
    let group = rng.pick(&groups);
    let panes = tree.slots[group.slot as usize].panes;
    let pane = if panes.entries().is_empty() || rng.once_in(10) {
        some_pane(rng, tree)
    } else {
        rng.pick(panes.entries())
    };
    TileOp::Reorder { group, pane, index: index(rng) }
}

fn target(rng: &mut Rng, tree: &TileTree) -> DockTarget {
    match rng.below(10) {
        0 | 1 => DockTarget::Root,
        2..=5 => DockTarget::Beside {
            tile: some_tile(rng, tree),
            axis: axis(rng),
            placement: side(rng),
            ratio: fraction(rng),
        },
        _ => DockTarget::Into {
            group: some_group(rng, tree),
            index: if rng.once_in(3) { None } else { Some(index(rng)) },
        },
    }
}

fn index(rng: &mut Rng) -> u64 {
    if rng.once_in(8) { rng.pick(&[16, 17, 1 << 32, u64::MAX]) } else { rng.below(17) }
}

fn fraction(rng: &mut Rng) -> f64 {
    if rng.once_in(24) { reals::bad_fraction(rng) } else { reals::good_fraction(rng) }
}

pub fn axis(rng: &mut Rng) -> Axis {
    rng.pick(&[Axis::Horizontal, Axis::Vertical])
}

fn side(rng: &mut Rng) -> Placement {
    rng.pick(&[Placement::Before, Placement::After])
}

fn panes(tree: &TileTree) -> Vec<u64> {
    let mut panes = Vec::new();
    for slot in tree.slots.iter() {
        match slot.kind {
            Kind::Pane(pane) => panes.push(pane),
            Kind::Tabs(_) => panes.extend(slot.panes.entries()),
            _ => {}
        }
    }
    panes
}

/// Mostly a pane that is there.
fn some_pane(rng: &mut Rng, tree: &TileTree) -> u64 {
    let panes = panes(tree);
    if panes.is_empty() || rng.once_in(24) {
        return fresh_pane(rng, tree);
    }
    rng.pick(&panes)
}

/// Mostly a pane that is not there.
pub fn fresh_pane(rng: &mut Rng, tree: &TileTree) -> u64 {
    let panes = panes(tree);
    let wanted = if rng.once_in(16) { rng.pick(&FAR_PANES) } else { rng.below(200) };
    if panes.contains(&wanted) { rng.below(1 << 20) + 1000 } else { wanted }
}

fn tiles_where(tree: &TileTree, wanted: impl Fn(Kind) -> bool) -> Vec<TileId> {
    let there = |at: &usize| wanted(tree.slots[*at].kind);
    (0..SLOTS).filter(there).map(|at| TileId { slot: at as u64 }).collect()
}

fn some_group(rng: &mut Rng, tree: &TileTree) -> TileId {
    let groups = tiles_where(tree, |kind| matches!(kind, Kind::Tabs(_)));
    if groups.is_empty() || rng.once_in(10) { some_tile(rng, tree) } else { rng.pick(&groups) }
}

/// Mostly a tile that is there; else an empty slot or an id past the arena.
fn some_tile(rng: &mut Rng, tree: &TileTree) -> TileId {
    let tiles = tiles_where(tree, |kind| kind != Kind::Empty);
    if tiles.is_empty() || rng.once_in(16) {
        let far = [64, 65, 255, 1 << 32, (1 << 32) + 1, u64::MAX];
        let slot = if rng.once_in(2) { rng.pick(&far) } else { rng.below(SLOTS as u64) };
        return TileId { slot };
    }
    rng.pick(&tiles)
}
