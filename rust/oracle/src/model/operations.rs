//! The operations. On a sound tree each pane and each tile stands once, so the
//! slots are simply searched; the Rust walks from the root.

use super::insert::{insert_beside, insert_into, new_tiles_beside};
use super::numbers::good_fraction;
use super::repair::{is_sound, repaired_with_empty};
use crate::value::{
    Axis, DockTarget, Ids, Kind, Placement, Refusal, SLOTS, Slot, TabBarPlacement, TileId, TileOp,
    TileTree, TreeAnswer,
};

pub fn apply(tree: &TileTree, op: &TileOp) -> TreeAnswer {
    match applied(tree, op) {
        Ok(tree) => TreeAnswer { refusal: None, tree },
        Err(refusal) => TreeAnswer { refusal: Some(refusal), tree: tree.clone() },
    }
}

/// A tree being changed, with the slots that were empty when the call began.
pub struct Change {
    pub tree: TileTree,
    pub empty_at_start: Vec<usize>,
    taken: usize,
}

impl Change {
    /// Refuses with 2 when the call needs more new tiles than slots were empty.
    fn need(&self, tiles: usize) -> Result<(), Refusal> {
        if tiles > self.empty_at_start.len() { Err(Refusal::ARENA_FULL) } else { Ok(()) }
    }

    /// The next of the slots that were empty at the start; `need` came before.
    pub fn put(&mut self, slot: Slot) -> TileId {
        let at = self.empty_at_start[self.taken];
        self.taken += 1;
        self.tree.slots[at] = slot;
        TileId { slot: at as u64 }
    }

    pub fn slot(&mut self, id: TileId) -> &mut Slot {
        &mut self.tree.slots[id.slot as usize]
    }
}

fn applied(tree: &TileTree, op: &TileOp) -> Result<TileTree, Refusal> {
    if !is_sound(tree) {
        return Err(Refusal::NOT_SOUND);
    }
    let mut change = Change { tree: tree.clone(), empty_at_start: tree.empty_slots(), taken: 0 };
    let changed = match *op {
        TileOp::Activate { pane } => activate(&mut change, pane)?,
        TileOp::Close { pane } => close(&mut change, pane)?,
        TileOp::SplitPane { pane, axis, new_pane, placement, fraction } => {
            split_pane(&mut change, pane, axis, new_pane, placement, fraction)?
        }
        TileOp::Move { pane, target } => move_pane(&mut change, pane, target)?,
        TileOp::Reorder { group, pane, index } => reorder(&mut change, group, pane, index)?,
    };
    if !changed {
        return Ok(tree.clone());
    }
    change.tree.revision = tree.revision.checked_add(1).ok_or(Refusal::REVISION_EXHAUSTED)?;
    // Slots that the change has filled are gone for the fresh group as well,
    // but it is only needed where the change made no tile.
    repaired_with_empty(&change.tree, &change.empty_at_start).map(|(tree, _)| tree)
}

/// The tile that holds a pane, and the pane's place where that is a group.
fn find_pane(tree: &TileTree, pane: u64) -> Result<(TileId, Option<usize>), Refusal> {
    (0..SLOTS)
        .find_map(|at| {
            let slot = &tree.slots[at];
            let place = match slot.kind {
                Kind::Pane(other) if other == pane => None,
                Kind::Tabs(_) => {
                    Some(slot.panes.entries().iter().position(|&other| other == pane)?)
                }
                _ => return None,
            };
            Some((TileId { slot: at as u64 }, place))
        })
        .ok_or(Refusal::INVALID_PANE_ID)
}

fn activate(change: &mut Change, pane: u64) -> Result<bool, Refusal> {
    let (tile, place) = find_pane(&change.tree, pane)?;
    let Some(place) = place else { return Ok(false) };
    let slot = change.slot(tile);
    let changed = slot.active != place as u64;
    slot.active = place as u64;
    Ok(changed)
}

fn close(change: &mut Change, pane: u64) -> Result<bool, Refusal> {
    take_out(change, pane)?;
    if pane_count(&change.tree) == 0 {
        change.need(1)?;
    }
    Ok(true)
}

fn pane_count(tree: &TileTree) -> u64 {
    let panes = |slot: &Slot| match slot.kind {
        Kind::Pane(_) => 1,
        Kind::Tabs(_) => slot.panes.len,
        _ => 0,
    };
    tree.slots.iter().map(panes).sum()
}

fn split_pane(
    change: &mut Change,
    pane: u64,
    axis: Axis,
    new_pane: u64,
    placement: Placement,
    fraction: f64,
) -> Result<bool, Refusal> {
    if !good_fraction(fraction) {
        return Err(Refusal::INVALID_OPERATION);
    }
    if find_pane(&change.tree, new_pane).is_ok() {
        return Err(Refusal::duplicate_pane(new_pane));
    }
    let (target, _) = find_pane(&change.tree, pane)?;
    change.need(new_tiles_beside(&change.tree, target, axis))?;
    let tile = change.put(Slot::pane(new_pane));
    insert_beside(change, target, axis, tile, placement, fraction)?;
    Ok(true)
}

fn move_pane(change: &mut Change, pane: u64, target: DockTarget) -> Result<bool, Refusal> {
    find_pane(&change.tree, pane)?;
    check_target(&change.tree, target)?;
    take_out(change, pane)?;
    match target {
        DockTarget::Root => {
            let root = change.tree.root;
            alive(&change.tree, root)?;
            change.need(2)?;
            let group = change.put(Slot::tabs(&[pane], 0, TabBarPlacement::Top));
            insert_beside(change, root, Axis::Horizontal, group, Placement::After, 0.5)?;
        }
        DockTarget::Beside { tile, axis, placement, ratio } => {
            alive(&change.tree, tile)?;
            change.need(new_tiles_beside(&change.tree, tile, axis))?;
            let inserted = change.put(Slot::pane(pane));
            insert_beside(change, tile, axis, inserted, placement, ratio)?;
        }
        DockTarget::Into { group, index } => insert_into(change, group, pane, index)?,
    }
    Ok(true)
}

/// A bad ratio comes before an unknown tile.
fn check_target(tree: &TileTree, target: DockTarget) -> Result<(), Refusal> {
    match target {
        DockTarget::Root => Ok(()),
        DockTarget::Beside { ratio, .. } if !good_fraction(ratio) => Err(Refusal::INVALID_TARGET),
        DockTarget::Beside { tile, .. } => alive(tree, tile).map(|_| ()),
        DockTarget::Into { group, .. } => match alive(tree, group)?.kind {
            Kind::Tabs(_) => Ok(()),
            _ => Err(Refusal::INVALID_TARGET),
        },
    }
}

/// The one place where an id is resolved to its slot.
fn alive(tree: &TileTree, id: TileId) -> Result<&Slot, Refusal> {
    tree.get(id).ok_or(Refusal::INVALID_TILE_ID)
}

/// A tile's place in its split stays, counted, until repair.
fn take_out(change: &mut Change, pane: u64) -> Result<(), Refusal> {
    let (tile, place) = find_pane(&change.tree, pane)?;
    let slot = change.slot(tile);
    match place {
        None => *slot = Slot::EMPTY,
        Some(place) => remove_from_group(slot, place),
    }
    Ok(())
}

fn remove_from_group(slot: &mut Slot, place: usize) {
    let mut panes = slot.panes.entries().to_vec();
    panes.remove(place);
    let left = panes.len() as u64;
    slot.panes = Ids::of(&panes);
    if slot.active >= left {
        slot.active = left.saturating_sub(1);
    } else if place as u64 <= slot.active && slot.active != 0 {
        slot.active -= 1;
    }
}

fn reorder(change: &mut Change, group: TileId, pane: u64, index: u64) -> Result<bool, Refusal> {
    let slot = *alive(&change.tree, group)?;
    let Kind::Tabs(_) = slot.kind else { return Err(Refusal::INVALID_TILE_ID) };
    let mut panes = slot.panes.entries().to_vec();
    let from = panes.iter().position(|&other| other == pane).ok_or(Refusal::INVALID_PANE_ID)?;
    let active_pane = panes[slot.active as usize];
    panes.remove(from);
    let to = index.min(panes.len() as u64) as usize;
    panes.insert(to, pane);
    let active = panes.iter().position(|&other| other == active_pane);
    let slot = change.slot(group);
    slot.panes = Ids::of(&panes);
    slot.active = active.expect("a reorder loses no pane") as u64;
    Ok(from != to)
}
