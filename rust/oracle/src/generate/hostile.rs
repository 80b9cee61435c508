//! Hostile arenas: sound trees damaged in every way, wild ones, and shapes made
//! to reach one rule each.

use super::operations::axis;
use super::reals;
use super::rng::Rng;
use super::trees::{scattered, sound_tree};
use crate::value::{
    Axis, Ids, Kind, Reals, SLOTS, Slot, TabBarPlacement, TileId, TileTree, Tiles, WIDTH,
};

const FAR_IDS: [u64; 6] = [64, 65, 127, 1 << 32, (1 << 32) + 3, u64::MAX];
const LONG: [u64; 5] = [17, 18, 255, 1 << 32, u64::MAX];
const BARS: [TabBarPlacement; 5] = [
    TabBarPlacement::Hidden,
    TabBarPlacement::Top,
    TabBarPlacement::Bottom,
    TabBarPlacement::Left,
    TabBarPlacement::Right,
];

pub fn arena(rng: &mut Rng) -> TileTree {
    match rng.below(20) {
        0 => wild(rng),
        1 => chain(rng),
        2 => nothing_kept(rng),
        3 => same_axis_nest(rng),
        4 => sound_tree(rng),
        5 => full_of_actions(rng),
        _ => damaged(rng),
    }
}

fn damaged(rng: &mut Rng) -> TileTree {
    let mut tree = sound_tree(rng);
    let times = if rng.once_in(4) { rng.between(4, 20) } else { rng.between(1, 4) };
    for _ in 0..times {
        damage(rng, &mut tree);
    }
    tree
}

fn damage(rng: &mut Rng, tree: &mut TileTree) {
    let occupied: Vec<usize> = (0..SLOTS).filter(|&at| !tree.slots[at].is_empty()).collect();
    let at =
        if occupied.is_empty() || rng.once_in(12) { rng.index(SLOTS) } else { rng.pick(&occupied) };
    match rng.below(24) {
        0 => tree.slots[at] = Slot::EMPTY,
        1 => tree.slots[at] = wild_slot(rng),
        2 => tree.root = id(rng),
        3 => tree.slots[rng.index(SLOTS)] = tree.slots[at],
        4 => lengthen(rng, &mut tree.slots[at]),
        _ => damage_slot(rng, &mut tree.slots[at]),
    }
}

fn damage_slot(rng: &mut Rng, slot: &mut Slot) {
    match slot.kind {
        Kind::Empty => *slot = wild_slot(rng),
        Kind::Pane(_) => slot.kind = Kind::Pane(rng.below(60)),
        Kind::Tabs(_) => damage_tabs(rng, slot),
        Kind::Split(axis) => damage_split(rng, slot, axis),
    }
}

fn damage_tabs(rng: &mut Rng, slot: &mut Slot) {
    let used = slot.panes.len.min(WIDTH as u64);
    match rng.below(7) {
        0 => slot.active = rng.pick(&[used, used + 1, 16, 1 << 32, u64::MAX]),
        1 => slot.active = rng.below(16),
        2 => slot.panes.len = 0,
        3 => slot.panes.at[rng.index(WIDTH)] = rng.below(60),
        4 => slot.panes.at[rng.index(WIDTH)] = slot.panes.at[rng.index(WIDTH)],
        5 => slot.kind = Kind::Tabs(rng.pick(&BARS)),
        _ => slot.panes.len = rng.below(17),
    }
}

fn damage_split(rng: &mut Rng, slot: &mut Slot, axis: Axis) {
    let place = rng.index(slot.children.len.clamp(1, WIDTH as u64) as usize);
    match rng.below(14) {
        0 => slot.children.at[place] = id(rng),
        1 => slot.children.at[place] = slot.children.at[rng.index(WIDTH)],
        2 => slot.children.len = rng.below(17),
        3 => slot.children.len = rng.below(2),
        4 | 5 => slot.shares.at[place] = reals::bad_share(rng),
        6 => slot.shares.len = rng.below(17),
        7 => slot.shares.at[place] = reals::extreme(rng),
        8 | 9 => slot.minima.at[place] = reals::bad_minimum(rng),
        10 => slot.minima.at[place] = reals::good_minimum(rng),
        11 => slot.minima.len = rng.below(17),
        12 => slot.shares = Reals::of(&[f64::NAN; 16]),
        _ => slot.kind = Kind::Split(other(axis)),
    }
}

/// A list past 16; now and then one that the slot's kind does not use.
fn lengthen(rng: &mut Rng, slot: &mut Slot) {
    let length = rng.pick(&LONG);
    match rng.below(4) {
        0 => slot.panes.len = length,
        1 => slot.children.len = length,
        2 => slot.shares.len = length,
        _ => slot.minima.len = length,
    }
}

fn other(axis: Axis) -> Axis {
    match axis {
        Axis::Horizontal => Axis::Vertical,
        Axis::Vertical => Axis::Horizontal,
    }
}

fn id(rng: &mut Rng) -> TileId {
    let slot = if rng.once_in(5) { rng.pick(&FAR_IDS) } else { rng.below(SLOTS as u64) };
    TileId { slot }
}

/// Every slot at random: rings, shared children and all.
fn wild(rng: &mut Rng) -> TileTree {
    let mut tree = TileTree::blank();
    tree.root = TileId { slot: rng.below(SLOTS as u64) };
    tree.revision = rng.below(9);
    let filled = rng.between(1, 6);
    for slot in tree.slots.iter_mut() {
        if rng.below(6) < filled {
            *slot = wild_slot(rng);
        }
    }
    tree
}

fn wild_slot(rng: &mut Rng) -> Slot {
    let mut slot = Slot::EMPTY;
    slot.kind = match rng.below(6) {
        0 | 1 => Kind::Pane(rng.below(80)),
        2 | 3 => Kind::Tabs(rng.pick(&BARS)),
        _ => Kind::Split(axis(rng)),
    };
    slot.active = rng.below(5);
    slot.panes = Ids { at: std::array::from_fn(|_| rng.below(90)), len: few(rng) };
    slot.children = Tiles { at: std::array::from_fn(|_| id(rng)), len: few(rng) };
    slot.shares = Reals { at: std::array::from_fn(|_| any_share(rng)), len: slot.children.len };
    slot.minima = Reals { at: std::array::from_fn(|_| any_minimum(rng)), len: few(rng) };
    slot
}

fn few(rng: &mut Rng) -> u64 {
    if rng.once_in(4) { rng.below(17) } else { rng.below(5) }
}

fn any_share(rng: &mut Rng) -> f64 {
    if rng.once_in(6) { reals::bad_share(rng) } else { reals::good_share(rng) }
}

fn any_minimum(rng: &mut Rng) -> f64 {
    if rng.once_in(6) { reals::bad_minimum(rng) } else { reals::good_minimum(rng) }
}

/// Splits one under the other, up to 63 of them, each with a leaf beside.
fn chain(rng: &mut Rng) -> TileTree {
    let mut tree = TileTree::blank();
    let depth = if rng.once_in(3) { 63 } else { rng.between(2, 40) as usize };
    let leaves = depth < 32;
    for at in 0..depth {
        let leaf = (63 - at) as u64;
        let children =
            if leaves { [at as u64 + 1, leaf] } else { [at as u64 + 1, rng.pick(&FAR_IDS)] };
        let shares = [any_share(rng), any_share(rng)];
        let axis = if rng.once_in(4) {
            axis(rng)
        } else if at % 2 == 0 {
            Axis::Horizontal
        } else {
            Axis::Vertical
        };
        tree.slots[at] = Slot::split(axis, &children, &shares, &[any_minimum(rng)]);
        if leaves {
            tree.slots[leaf as usize] = Slot::pane(leaf);
        }
    }
    tree.slots[depth] = Slot::tabs(&[1000, 1001], rng.below(3), TabBarPlacement::Top);
    if rng.once_in(3) {
        tree = closed_to_a_ring(rng, tree, depth);
    }
    if rng.once_in(2) && leaves { scattered(rng, &tree) } else { tree }
}

fn closed_to_a_ring(rng: &mut Rng, mut tree: TileTree, depth: usize) -> TileTree {
    let from = rng.index(depth);
    tree.slots[from].children.at[rng.index(2)] = TileId { slot: rng.below(depth as u64) };
    tree
}

/// No pane is reached, with or without a slot for the fresh group.
fn nothing_kept(rng: &mut Rng) -> TileTree {
    let mut tree = TileTree::blank();
    tree.root = id(rng);
    let full = rng.once_in(2);
    for slot in tree.slots.iter_mut() {
        if full || rng.once_in(2) {
            *slot = match rng.below(3) {
                0 => Slot::tabs(&[], rng.below(2), rng.pick(&BARS)),
                1 => Slot::split(axis(rng), &[rng.below(70), 64], &[1.0, 1.0], &[]),
                _ => Slot::split(axis(rng), &[], &[], &[]),
            };
        }
    }
    tree
}

/// Splits of one axis within each other, so that shares multiply: past the
/// largest number, down to nothing, and lists past 16.
fn same_axis_nest(rng: &mut Rng) -> TileTree {
    let mut tree = TileTree::blank();
    let along = axis(rng);
    let levels = rng.between(2, 5);
    let mut next = levels as usize;
    for level in 0..levels as usize {
        let most = if rng.once_in(4) { 12 } else { 4 };
        let leaves = rng.between(1, most);
        let mut children: Vec<u64> = Vec::new();
        for _ in 0..leaves {
            if next < SLOTS {
                tree.slots[next] = Slot::pane(next as u64);
                children.push(next as u64);
                next += 1;
            }
        }
        if level + 1 < levels as usize {
            children.insert(rng.index(children.len() + 1), level as u64 + 1);
        }
        let shares: Vec<f64> = children
            .iter()
            .map(|_| if rng.once_in(2) { reals::extreme(rng) } else { 1.0 })
            .collect();
        let minima: Vec<f64> = if rng.once_in(3) {
            children.iter().map(|_| reals::good_minimum(rng)).collect()
        } else {
            Vec::new()
        };
        tree.slots[level] = Slot::split(along, &children, &shares, &minima);
    }
    tree
}

/// A chain of splits with distinct bad ids, bad shares and bad minima each:
/// the longest lists of actions.
fn full_of_actions(rng: &mut Rng) -> TileTree {
    let mut tree = TileTree::blank();
    let depth = rng.between(2, 63) as usize;
    for at in 0..depth {
        let mut children = [at as u64 + 1; WIDTH];
        for (place, child) in children.iter_mut().enumerate().skip(1) {
            *child = 100 + (at * WIDTH + place) as u64;
        }
        tree.slots[at] = Slot::split(axis(rng), &children, &[f64::NAN; 3], &[-1.0]);
    }
    let panes: [u64; WIDTH] = std::array::from_fn(|at| at as u64 / 2);
    tree.slots[depth] = Slot::tabs(&panes, 99, rng.pick(&BARS));
    tree
}
