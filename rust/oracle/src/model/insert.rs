//! Insertion of a tile beside another, and of a pane into a group.

use super::numbers::{aligned_minima, compact_minima, larger};
use super::operations::Change;
use crate::value::{
    Axis, Ids, Kind, Placement, Reals, Refusal, SLOTS, Slot, TileId, TileTree, Tiles, WIDTH,
};

/// No share that insertion makes is below this.
const SMALLEST_SHARE: f64 = 0.01;

/// The inserted one, and a split for it unless its parent already has the axis.
pub fn new_tiles_beside(tree: &TileTree, target: TileId, axis: Axis) -> usize {
    if parent_along(tree, target, axis).is_some() { 1 } else { 2 }
}

pub fn insert_beside(
    change: &mut Change,
    target: TileId,
    axis: Axis,
    inserted: TileId,
    placement: Placement,
    fraction: f64,
) -> Result<(), Refusal> {
    match parent_along(&change.tree, target, axis) {
        Some((parent, at)) => {
            insert_in_split(change.slot(parent), at, inserted, placement, fraction)
        }
        None => {
            put_split_in_place(change, target, axis, inserted, placement, fraction);
            Ok(())
        }
    }
}

fn parent_of(tree: &TileTree, target: TileId) -> Option<(TileId, usize)> {
    (0..SLOTS).find_map(|slot| {
        let Kind::Split(_) = tree.slots[slot].kind else { return None };
        let at = tree.slots[slot].children.entries().iter().position(|&child| child == target)?;
        Some((TileId { slot: slot as u64 }, at))
    })
}

fn parent_along(tree: &TileTree, target: TileId, axis: Axis) -> Option<(TileId, usize)> {
    parent_of(tree, target)
        .filter(|(parent, _)| tree.slots[parent.slot as usize].kind == Kind::Split(axis))
}

fn insert_in_split(
    split: &mut Slot,
    target: usize,
    inserted: TileId,
    placement: Placement,
    fraction: f64,
) -> Result<(), Refusal> {
    let mut children = split.children.entries().to_vec();
    if children.len() == WIDTH {
        return Err(Refusal::TOO_WIDE);
    }
    let mut shares = split.shares.entries().to_vec();
    let mut minima = aligned_minima(children.len(), split.minima.entries());
    let inserted_share = larger(shares[target] * fraction, SMALLEST_SHARE);
    shares[target] = larger(shares[target] - inserted_share, SMALLEST_SHARE);
    let at = match placement {
        Placement::Before => target,
        Placement::After => target + 1,
    };
    children.insert(at, inserted);
    shares.insert(at, inserted_share);
    minima.insert(at, 0.0);
    split.children = Tiles::of(&children);
    split.shares = Reals::of(&shares);
    split.minima = Reals::of(compact_minima(&minima));
    Ok(())
}

/// A new split of target and inserted takes the target's place, which keeps
/// its share and minimum.
fn put_split_in_place(
    change: &mut Change,
    target: TileId,
    axis: Axis,
    inserted: TileId,
    placement: Placement,
    fraction: f64,
) {
    let place = parent_of(&change.tree, target);
    let inserted_share = larger(fraction, SMALLEST_SHARE);
    let target_share = larger(1.0 - fraction, SMALLEST_SHARE);
    let (children, shares) = match placement {
        Placement::Before => ([inserted.slot, target.slot], [inserted_share, target_share]),
        Placement::After => ([target.slot, inserted.slot], [target_share, inserted_share]),
    };
    let split = change.put(Slot::split(axis, &children, &shares, &[]));
    match place {
        Some((parent, at)) => change.slot(parent).children.at[at] = split,
        None => change.tree.root = split,
    }
}

/// The index counts after the taking out and is clamped; the pane becomes active.
pub fn insert_into(
    change: &mut Change,
    group: TileId,
    pane: u64,
    index: Option<u64>,
) -> Result<(), Refusal> {
    let slot = change.slot(group);
    let mut panes = slot.panes.entries().to_vec();
    if panes.len() == WIDTH {
        return Err(Refusal::TOO_WIDE);
    }
    let end = panes.len() as u64;
    let at = index.map_or(end, |index| index.min(end));
    panes.insert(at as usize, pane);
    slot.panes = Ids::of(&panes);
    slot.active = at;
    Ok(())
}
