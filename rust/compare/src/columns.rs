//! Trees and operations as the numbers that cross the boundary, and trees back.

use oracle::value::{
    Axis, DockTarget, Ids, Kind, LayoutInput, List, Placement, Reals, Rect, Slot, TabBarPlacement,
    TileId, TileOp, TileTree, Tiles,
};
use tiling::Arena;
use tiling::arena::{SLOTS, WIDTH, head, kind};

pub const BARS: [TabBarPlacement; 5] = [
    TabBarPlacement::Hidden,
    TabBarPlacement::Top,
    TabBarPlacement::Bottom,
    TabBarPlacement::Left,
    TabBarPlacement::Right,
];

pub const AXES: [Axis; 2] = [Axis::Horizontal, Axis::Vertical];

fn bar_code(bar: TabBarPlacement) -> u64 {
    BARS.iter().position(|&other| other == bar).expect("all five are listed") as u64
}

fn axis_code(axis: Axis) -> u64 {
    u64::from(axis == Axis::Vertical)
}

fn side_code(placement: Placement) -> u64 {
    u64::from(placement == Placement::After)
}

/// What is no part of a tree goes along: places past a list's length, and the
/// lists and lengths that a kind does not use.
pub fn arena_of(tree: &TileTree) -> Box<Arena> {
    let mut arena = Arena::boxed();
    arena.top = [tree.root.slot, tree.revision];
    for (at, slot) in tree.slots.iter().enumerate() {
        arena.heads[at] = head_of(slot);
        arena.ids[at] = match slot.kind {
            Kind::Split(_) => slot.children.at.map(|child| child.slot),
            _ => slot.panes.at,
        };
        arena.shares[at] = slot.shares.at;
        arena.minima[at] = slot.minima.at;
    }
    arena
}

fn head_of(slot: &Slot) -> [u64; 8] {
    let (code, mode, pane, ids) = match slot.kind {
        Kind::Empty => (kind::EMPTY, slot.active, slot.active, slot.panes.len),
        Kind::Pane(pane) => (kind::PANE, slot.active, pane, slot.panes.len),
        Kind::Tabs(bar) => (kind::GROUP, bar_code(bar), slot.shares.len, slot.panes.len),
        Kind::Split(axis) => (kind::SPLIT, axis_code(axis), slot.active, slot.children.len),
    };
    [code, mode, pane, slot.active, ids, slot.shares.len, slot.minima.len, 0]
}

/// Back; every code must be one.
pub fn tree_of(arena: &Arena) -> TileTree {
    let mut tree = TileTree::blank();
    tree.root = TileId { slot: arena.top[0] };
    tree.revision = arena.top[1];
    for at in 0..SLOTS {
        tree.slots[at] = slot_of(arena, at);
    }
    tree
}

fn slot_of(arena: &Arena, at: usize) -> Slot {
    let head = &arena.heads[at];
    let ids = Ids { at: arena.ids[at], len: head[head::IDS] };
    match head[head::KIND] {
        kind::EMPTY => Slot::EMPTY,
        kind::PANE => Slot::pane(head[head::PANE]),
        kind::GROUP => Slot {
            kind: Kind::Tabs(BARS[head[head::MODE] as usize]),
            active: head[head::ACTIVE],
            panes: ids,
            ..Slot::EMPTY
        },
        kind::SPLIT => Slot {
            kind: Kind::Split(AXES[head[head::MODE] as usize]),
            children: Tiles { at: ids.at.map(|slot| TileId { slot }), len: ids.len },
            shares: reals(&arena.shares[at], head[head::SHARES]),
            minima: reals(&arena.minima[at], head[head::MINIMA]),
            ..Slot::EMPTY
        },
        other => panic!("slot {at} came back with kind {other}"),
    }
}

fn reals(at: &[f64; WIDTH], len: u64) -> Reals {
    List { at: *at, len }
}

/// The words and the fraction of an operation. Words that it does not use are
/// filled with `dirt`.
pub fn words_of(op: &TileOp, dirt: u64) -> ([u64; 8], f64) {
    let (what, unused) = (dirt, f64::from_bits(dirt));
    match *op {
        TileOp::Activate { pane } => ([0, pane, what, what, what, what, what, what], unused),
        TileOp::Close { pane } => ([1, pane, what, what, what, what, what, what], unused),
        TileOp::SplitPane { pane, axis, new_pane, placement, fraction } => {
            let (axis, side) = (axis_code(axis), side_code(placement));
            ([2, pane, axis, side, new_pane, what, what, what], fraction)
        }
        TileOp::Move { pane, target } => match target {
            DockTarget::Root => ([3, pane, what, what, what, 0, what, what], unused),
            DockTarget::Beside { tile, axis, placement, ratio } => {
                let (axis, side) = (axis_code(axis), side_code(placement));
                ([3, pane, axis, side, tile.slot, 1, what, what], ratio)
            }
            DockTarget::Into { group, index: Some(index) } => {
                ([3, pane, what, what, group.slot, 2, 1, index], unused)
            }
            DockTarget::Into { group, index: None } => {
                ([3, pane, what, what, group.slot, 2, 0, what], unused)
            }
        },
        TileOp::Reorder { group, pane, index } => {
            ([4, pane, what, what, group.slot, what, what, index], unused)
        }
    }
}

/// The operation that good words say.
pub fn op_of(words: &[u64; 8], fraction: f64) -> TileOp {
    let [what, pane, axis, side, tile, target, given, index] = *words;
    let (axis, id) = (|| AXES[axis as usize], TileId { slot: tile });
    let placement = || if side == 0 { Placement::Before } else { Placement::After };
    match (what, target) {
        (0, _) => TileOp::Activate { pane },
        (1, _) => TileOp::Close { pane },
        (2, _) => {
            let (axis, placement) = (axis(), placement());
            TileOp::SplitPane { pane, axis, new_pane: tile, placement, fraction }
        }
        (3, 0) => TileOp::Move { pane, target: DockTarget::Root },
        (3, 1) => {
            let (axis, placement) = (axis(), placement());
            let target = DockTarget::Beside { tile: id, axis, placement, ratio: fraction };
            TileOp::Move { pane, target }
        }
        (3, _) => {
            let index = (given == 1).then_some(index);
            TileOp::Move { pane, target: DockTarget::Into { group: id, index } }
        }
        _ => TileOp::Reorder { group: id, pane, index },
    }
}

/// Whether every head's kind and mode is one: also where no tile is reached.
pub fn codes_are_good(arena: &Arena) -> bool {
    arena.heads.iter().all(|head| match head[head::KIND] {
        kind::EMPTY | kind::PANE => true,
        kind::GROUP => head[head::MODE] < BARS.len() as u64,
        kind::SPLIT => head[head::MODE] < AXES.len() as u64,
        _ => false,
    })
}

/// Whether an operation's words name one; words that it does not use may be
/// anything.
pub fn words_are_good(words: &[u64; 8]) -> bool {
    let [what, _, axis, side, _, target, given, _] = *words;
    let sides = axis < 2 && side < 2;
    match (what, target) {
        (0 | 1 | 4, _) | (3, 0) => true,
        (2, _) | (3, 1) => sides,
        (3, 2) => given < 2,
        _ => false,
    }
}

pub fn input_of(numbers: &[f64; 8]) -> LayoutInput {
    let [x0, y0, x1, y1, bar, handle, min_width, min_height] = *numbers;
    LayoutInput { outer: Rect { x0, y0, x1, y1 }, handle, bar, min_width, min_height }
}

pub fn numbers_of(input: &LayoutInput) -> [f64; 8] {
    let outer = input.outer;
    let sizes = [input.bar, input.handle, input.min_width, input.min_height];
    [outer.x0, outer.y0, outer.x1, outer.y1, sizes[0], sizes[1], sizes[2], sizes[3]]
}
