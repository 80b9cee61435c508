//! Sound trees: built from tables, grown by operations, scattered over slots.

use super::operations::{axis, growing_operation};
use super::reals::good_share;
use super::rng::Rng;
use super::tables::good_parts;
use crate::engine::Engine;
use crate::model::Model;
use crate::value::{Axis, Kind, List, SLOTS, Slot, TabBarPlacement, TileId, TileTree, WIDTH};

pub fn sound_tree(rng: &mut Rng) -> TileTree {
    let mut tree = match rng.below(32) {
        0 => lone_empty_root(rng),
        1 => lone_pane(rng),
        2..=5 => near_wide(rng),
        _ => built(rng),
    };
    let steps = if rng.once_in(3) { rng.between(0, 30) } else { rng.between(0, 4) };
    for _ in 0..steps {
        let op = growing_operation(rng, &tree);
        tree = Model.apply(&tree, &op).tree;
    }
    if rng.once_in(2) {
        tree = scattered(rng, &tree);
    }
    sign_some_zeros(rng, &mut tree);
    if rng.once_in(4) {
        leave_dirt(rng, &mut tree);
    }
    tree.revision = revision(rng);
    tree
}

fn lone_empty_root(rng: &mut Rng) -> TileTree {
    let mut tree = TileTree::blank();
    let at = rng.index(SLOTS);
    tree.root = TileId { slot: at as u64 };
    tree.slots[at] = Slot::tabs(&[], 0, TabBarPlacement::Hidden);
    tree
}

fn lone_pane(rng: &mut Rng) -> TileTree {
    let mut tree = TileTree::blank();
    let at = rng.index(SLOTS);
    tree.root = TileId { slot: at as u64 };
    tree.slots[at] = match rng.below(2) {
        0 => Slot::pane(rng.below(20)),
        _ => Slot::tabs(&[rng.below(20)], 0, TabBarPlacement::Left),
    };
    tree
}

/// From a good table; the few that are refused for their width leave the lone
/// empty root, which is sound as well.
fn built(rng: &mut Rng) -> TileTree {
    let tiles = match rng.below(12) {
        0 => rng.between(58, 64),
        1..=3 => rng.between(17, 60),
        _ => rng.between(1, 20),
    };
    let parts = good_parts(rng, tiles);
    Model.from_spec(&parts.bytes()).tree
}

/// A split with 13 to 16 places, some of them groups near 16, some of them
/// splits across it that hold a split along it: where 3 lies near, at the
/// insertion and after the repair.
fn near_wide(rng: &mut Rng) -> TileTree {
    let along = axis(rng);
    let across = if along == Axis::Horizontal { Axis::Vertical } else { Axis::Horizontal };
    let mut maker = Maker { tree: TileTree::blank(), next_slot: 1, next_pane: 0 };
    let count = rng.between(13, 16);
    let children: Vec<u64> = (0..count)
        .map(|_| match rng.below(9) {
            0 => maker.group(rng.between(14, 16)),
            1 if maker.next_slot < 40 => {
                let inner: Vec<u64> = (0..rng.between(2, 4)).map(|_| maker.group(1)).collect();
                let inner = maker.split(along, &inner);
                let beside = maker.group(1);
                maker.split(across, &[inner, beside])
            }
            _ => maker.pane(),
        })
        .collect();
    let shares: Vec<f64> = children.iter().map(|_| good_share(rng)).collect();
    let minima: Vec<f64> = match rng.below(3) {
        0 => children.iter().map(|_| rng.between(1, 3) as f64).collect(),
        _ => Vec::new(),
    };
    maker.tree.slots[0] = Slot::split(along, &children, &shares, &minima);
    maker.tree
}

struct Maker {
    tree: TileTree,
    next_slot: usize,
    next_pane: u64,
}

impl Maker {
    fn put(&mut self, slot: Slot) -> u64 {
        let at = self.next_slot;
        self.tree.slots[at] = slot;
        self.next_slot += 1;
        at as u64
    }

    fn pane(&mut self) -> u64 {
        self.next_pane += 1;
        self.put(Slot::pane(self.next_pane))
    }

    fn group(&mut self, count: u64) -> u64 {
        let panes: Vec<u64> = (1..=count).map(|more| self.next_pane + more).collect();
        self.next_pane += count;
        self.put(Slot::tabs(&panes, count / 2, TabBarPlacement::Top))
    }

    fn split(&mut self, axis: Axis, children: &[u64]) -> u64 {
        let shares = vec![1.0; children.len()];
        self.put(Slot::split(axis, children, &shares, &[]))
    }
}

fn revision(rng: &mut Rng) -> u64 {
    match rng.below(12) {
        0 => u64::MAX,
        1 => u64::MAX - rng.between(1, 3),
        2 => rng.bits(),
        _ => rng.below(300),
    }
}

/// The same tree under other tile ids.
pub fn scattered(rng: &mut Rng, tree: &TileTree) -> TileTree {
    let mut to: Vec<u64> = (0..SLOTS as u64).collect();
    for at in (1..SLOTS).rev() {
        to.swap(at, rng.index(at + 1));
    }
    let mut out = TileTree::blank();
    out.revision = tree.revision;
    out.root = TileId { slot: to[tree.root.slot as usize] };
    for at in 0..SLOTS {
        let mut slot = tree.slots[at];
        for child in &mut slot.children.at[..slot.children.len.min(WIDTH as u64) as usize] {
            child.slot = to[child.slot as usize];
        }
        out.slots[to[at] as usize] = slot;
    }
    out
}

/// A zero minimum that is not the last may be minus zero in a sound tree.
fn sign_some_zeros(rng: &mut Rng, tree: &mut TileTree) {
    for slot in tree.slots.iter_mut() {
        if let Kind::Split(_) = slot.kind {
            let used = slot.minima.len as usize;
            for minimum in &mut slot.minima.at[..used] {
                if *minimum == 0.0 && rng.once_in(4) {
                    *minimum = -0.0;
                }
            }
        }
    }
}

/// Fills what is no part of a tree: places past a list's length, and lists that
/// a kind does not use, these with any length.
fn leave_dirt(rng: &mut Rng, tree: &mut TileTree) {
    for slot in tree.slots.iter_mut() {
        let is_group = matches!(slot.kind, Kind::Tabs(_));
        let is_split = matches!(slot.kind, Kind::Split(_));
        let dirt = rng.bits();
        if !is_group {
            slot.active = dirt;
        }
        soil(&mut slot.panes, is_group, dirt % 90);
        soil(&mut slot.children, is_split, TileId { slot: dirt % 70 });
        soil(&mut slot.shares, is_split, f64::NAN);
        soil(&mut slot.minima, is_split, -1.0);
    }
}

fn soil<T: Copy>(list: &mut List<T>, is_used: bool, dirt: T) {
    if !is_used {
        list.len = 19;
        list.at[0] = dirt;
    }
    let used = list.len.min(WIDTH as u64) as usize;
    list.at[used..].fill(dirt);
}
