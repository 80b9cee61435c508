//! Repair: a tile's repair calls a split's repair, which calls back.

use super::numbers::{aligned_minima, compact_minima, repaired_shares};
use crate::value::{
    Action, Axis, Kind, Reals, Refusal, RepairAnswer, SLOTS, Slot, TabBarPlacement, TileId,
    TileTree, Tiles, WIDTH, same_tree,
};

pub fn repair(tree: &TileTree) -> RepairAnswer {
    match repaired(tree) {
        Ok((tree, actions)) => RepairAnswer { refusal: None, tree, actions },
        Err(refusal) => {
            RepairAnswer { refusal: Some(refusal), tree: tree.clone(), actions: Vec::new() }
        }
    }
}

/// Accepted, no action, an equal tree; or the lone empty root.
pub fn is_sound(tree: &TileTree) -> bool {
    is_lone_empty_root(tree)
        || repaired(tree).is_ok_and(|(out, actions)| actions.is_empty() && same_tree(&out, tree))
}

fn is_lone_empty_root(tree: &TileTree) -> bool {
    let occupied = tree.slots.iter().filter(|slot| !slot.is_empty()).count();
    occupied == 1
        && tree.get(tree.root).is_some_and(|slot| {
            slot.kind == Kind::Tabs(TabBarPlacement::Hidden)
                && slot.panes.len == 0
                && slot.active == 0
        })
}

/// The repaired tree and the actions, or 3 or 2.
pub fn repaired(tree: &TileTree) -> Result<(TileTree, Vec<Action>), Refusal> {
    repaired_with_empty(tree, &tree.empty_slots())
}

/// As `repaired`, with the slots that were empty when the call began: an
/// operation empties and fills some before its tree is repaired.
pub fn repaired_with_empty(
    tree: &TileTree,
    empty_at_start: &[usize],
) -> Result<(TileTree, Vec<Action>), Refusal> {
    if tree.slots.iter().any(has_long_list) {
        return Err(Refusal::TOO_WIDE);
    }
    let mut walk = Walk::new(tree.clone());
    walk.tree.root = match walk.repair_tile(tree.root)? {
        Some(root) => root,
        None => walk.put_empty_group(empty_at_start)?,
    };
    walk.empty_unreached_slots();
    Ok((walk.tree, walk.actions))
}

/// Only the lists that the slot's kind uses count.
fn has_long_list(slot: &Slot) -> bool {
    match slot.kind {
        Kind::Empty | Kind::Pane(_) => false,
        Kind::Tabs(_) => slot.panes.too_long(),
        Kind::Split(_) => {
            slot.children.too_long() || slot.shares.too_long() || slot.minima.too_long()
        }
    }
}

struct Walk {
    tree: TileTree,
    claimed: [bool; SLOTS],
    panes_seen: Vec<u64>,
    actions: Vec<Action>,
}

/// A split's places while they are gathered; melting may make them many.
#[derive(Default)]
struct Places {
    children: Vec<TileId>,
    shares: Vec<f64>,
    minima: Vec<f64>,
}

impl Places {
    fn push(&mut self, child: TileId, share: f64, minimum: f64) {
        self.children.push(child);
        self.shares.push(share);
        self.minima.push(minimum);
    }
}

impl Walk {
    fn new(tree: TileTree) -> Self {
        Self { tree, claimed: [false; SLOTS], panes_seen: Vec::new(), actions: Vec::new() }
    }

    /// An action equal to any earlier one is kept out.
    fn note(&mut self, action: Action) {
        if !self.actions.contains(&action) {
            self.actions.push(action);
        }
    }

    fn clear(&mut self, id: TileId) {
        self.tree.slots[id.slot as usize] = Slot::EMPTY;
    }

    /// The tile that stands for `id` afterwards, if any does.
    fn repair_tile(&mut self, id: TileId) -> Result<Option<TileId>, Refusal> {
        let Some(slot) = self.claim(id) else {
            self.note(Action::RemovedInvalidNode(id));
            return Ok(None);
        };
        match slot.kind {
            Kind::Empty => unreachable!("only an occupied slot is claimed"),
            Kind::Pane(pane) => Ok(self.repair_pane(id, pane)),
            Kind::Tabs(_) => Ok(self.repair_tabs(id, slot)),
            Kind::Split(axis) => self.repair_split(id, axis, slot),
        }
    }

    /// A bad, empty or claimed id yields nothing.
    fn claim(&mut self, id: TileId) -> Option<Slot> {
        let slot = *self.tree.get(id)?;
        let claimed = &mut self.claimed[id.slot as usize];
        if *claimed {
            return None;
        }
        *claimed = true;
        Some(slot)
    }

    /// True at the first sight of a pane; any later one is reported.
    fn first_sight(&mut self, pane: u64, tile: TileId) -> bool {
        if self.panes_seen.contains(&pane) {
            self.note(Action::RemovedDuplicatePane { pane, tile });
            return false;
        }
        self.panes_seen.push(pane);
        true
    }

    fn repair_pane(&mut self, id: TileId, pane: u64) -> Option<TileId> {
        if self.first_sight(pane, id) {
            return Some(id);
        }
        self.clear(id);
        None
    }

    fn repair_tabs(&mut self, id: TileId, mut slot: Slot) -> Option<TileId> {
        let given = slot.panes;
        let given = given.entries();
        let kept: Vec<u64> =
            given.iter().copied().filter(|&pane| self.first_sight(pane, id)).collect();
        if kept.is_empty() {
            self.note(Action::RemovedInvalidNode(id));
            self.clear(id);
            return None;
        }
        let active_pane = usize::try_from(slot.active).ok().and_then(|at| given.get(at));
        let active = active_pane.and_then(|pane| kept.iter().position(|other| other == pane));
        let active = active.unwrap_or(0) as u64;
        if slot.active != active {
            self.note(Action::RepairedActiveTab(id));
        }
        slot.active = active;
        slot.panes = crate::value::Ids::of(&kept);
        self.tree.slots[id.slot as usize] = slot;
        Some(id)
    }

    fn repair_split(
        &mut self,
        id: TileId,
        axis: Axis,
        slot: Slot,
    ) -> Result<Option<TileId>, Refusal> {
        let given = slot.children.entries();
        let shares = repaired_shares(given.len(), slot.shares.entries());
        let minima = aligned_minima(given.len(), slot.minima.entries());
        if compact_minima(&minima) != slot.minima.entries() {
            self.note(Action::RepairedConstraints(id));
        }
        if shares != slot.shares.entries() {
            self.note(Action::RepairedShares(id));
        }
        let mut places = Places::default();
        let mut restructured = false;
        for (at, &child) in given.iter().enumerate() {
            match self.repair_tile(child)? {
                None => restructured = true,
                Some(child) if minima[at] == 0.0 && self.is_split_along(child, axis) => {
                    self.melt(child, shares[at], &mut places);
                    restructured = true;
                }
                Some(child) => places.push(child, shares[at], minima[at]),
            }
        }
        self.finish_split(id, slot, places, restructured)
    }

    fn is_split_along(&self, id: TileId, axis: Axis) -> bool {
        self.tree.slots[id.slot as usize].kind == Kind::Split(axis)
    }

    /// The child split's places come in with its share multiplied into theirs.
    /// It has just been repaired, so its shares are good and in number.
    fn melt(&mut self, child: TileId, share: f64, into: &mut Places) {
        let slot = self.tree.slots[child.slot as usize];
        let inner = slot.children.entries();
        let minima = aligned_minima(inner.len(), slot.minima.entries());
        for (at, &grandchild) in inner.iter().enumerate() {
            into.push(grandchild, share * slot.shares.at[at], minima[at]);
        }
        self.note(Action::CollapsedSplit(child));
        self.clear(child);
    }

    fn finish_split(
        &mut self,
        id: TileId,
        mut slot: Slot,
        places: Places,
        restructured: bool,
    ) -> Result<Option<TileId>, Refusal> {
        match places.children[..] {
            [] => {
                self.note(Action::RemovedInvalidNode(id));
                self.clear(id);
                return Ok(None);
            }
            [only] => {
                self.note(Action::CollapsedSplit(id));
                self.clear(id);
                return Ok(Some(only));
            }
            _ if places.children.len() > WIDTH => return Err(Refusal::TOO_WIDE),
            _ => {}
        }
        let shares = repaired_shares(places.children.len(), &places.shares);
        if restructured || shares != slot.shares.entries() {
            self.note(Action::RepairedShares(id));
        }
        slot.children = Tiles::of(&places.children);
        slot.shares = Reals::of(&shares);
        slot.minima = Reals::of(compact_minima(&places.minima));
        self.tree.slots[id.slot as usize] = slot;
        Ok(Some(id))
    }

    /// Nothing is left: a fresh empty Hidden group as root.
    fn put_empty_group(&mut self, empty_at_start: &[usize]) -> Result<TileId, Refusal> {
        let &lowest = empty_at_start.first().ok_or(Refusal::ARENA_FULL)?;
        self.tree.slots[lowest] = Slot::tabs(&[], 0, TabBarPlacement::Hidden);
        Ok(TileId { slot: lowest as u64 })
    }

    fn empty_unreached_slots(&mut self) {
        let mut reached = [false; SLOTS];
        self.mark_reached(self.tree.root, &mut reached);
        for at in (0..SLOTS).filter(|&at| !reached[at]) {
            if !self.tree.slots[at].is_empty() {
                self.note(Action::RemovedInvalidNode(TileId { slot: at as u64 }));
            }
            self.tree.slots[at] = Slot::EMPTY;
        }
    }

    /// On a repaired tree every id is good and stands once.
    fn mark_reached(&self, id: TileId, reached: &mut [bool; SLOTS]) {
        reached[id.slot as usize] = true;
        let slot = &self.tree.slots[id.slot as usize];
        if let Kind::Split(_) = slot.kind {
            for &child in slot.children.entries() {
                self.mark_reached(child, reached);
            }
        }
    }
}
