//! The values of document 01 as the port holds them, and what each call answers.
//!
//! A list has 16 places and a length. In an arena handed in, the length may be
//! over 16: the places past the sixteenth do not exist, and repair refuses.

pub const SLOTS: usize = 64;
pub const WIDTH: usize = 16;

#[derive(Clone, Copy, Debug, PartialEq, Eq, Hash)]
pub struct TileId {
    pub slot: u64,
}

#[derive(Clone, Copy, Debug, PartialEq, Eq)]
pub enum Axis {
    Horizontal,
    Vertical,
}

/// Where the new one stands, seen from the target.
#[derive(Clone, Copy, Debug, PartialEq, Eq)]
pub enum Placement {
    Before,
    After,
}

#[derive(Clone, Copy, Debug, PartialEq, Eq)]
pub enum TabBarPlacement {
    Hidden,
    Top,
    Bottom,
    Left,
    Right,
}

#[derive(Clone, Copy, Debug, PartialEq, Eq)]
pub enum Kind {
    Empty,
    Pane(u64),
    Tabs(TabBarPlacement),
    Split(Axis),
}

#[derive(Clone, Copy, Debug)]
pub struct List<T> {
    pub at: [T; WIDTH],
    pub len: u64,
}

pub type Ids = List<u64>;
pub type Tiles = List<TileId>;
pub type Reals = List<f64>;

impl<T: Copy> List<T> {
    /// The entries that exist: all of them, unless the length is over 16.
    pub fn entries(&self) -> &[T] {
        &self.at[..self.len.min(WIDTH as u64) as usize]
    }

    pub fn too_long(&self) -> bool {
        self.len > WIDTH as u64
    }
}

impl<T: Copy + Blank> List<T> {
    pub const EMPTY: Self = Self { at: [T::BLANK; WIDTH], len: 0 };

    /// A list of these entries; the caller sees to it that they fit.
    pub fn of(entries: &[T]) -> Self {
        let mut list = Self::EMPTY;
        list.at[..entries.len()].copy_from_slice(entries);
        list.len = entries.len() as u64;
        list
    }
}

/// What stands in places past a list's length.
pub trait Blank {
    const BLANK: Self;
}

impl Blank for u64 {
    const BLANK: Self = 0;
}

impl Blank for f64 {
    const BLANK: Self = 0.0;
}

impl Blank for TileId {
    const BLANK: Self = TileId { slot: 0 };
}

#[derive(Clone, Copy, Debug)]
pub struct Slot {
    pub kind: Kind,
    pub active: u64,
    pub panes: Ids,
    pub children: Tiles,
    pub shares: Reals,
    pub minima: Reals,
}

impl Slot {
    pub const EMPTY: Self = Self {
        kind: Kind::Empty,
        active: 0,
        panes: Ids::EMPTY,
        children: Tiles::EMPTY,
        shares: Reals::EMPTY,
        minima: Reals::EMPTY,
    };

    pub fn pane(pane: u64) -> Self {
        Self { kind: Kind::Pane(pane), ..Self::EMPTY }
    }

    pub fn tabs(panes: &[u64], active: u64, placement: TabBarPlacement) -> Self {
        Self { kind: Kind::Tabs(placement), active, panes: Ids::of(panes), ..Self::EMPTY }
    }

    pub fn split(axis: Axis, children: &[u64], shares: &[f64], minima: &[f64]) -> Self {
        let children: Vec<TileId> = children.iter().map(|&slot| TileId { slot }).collect();
        Self {
            kind: Kind::Split(axis),
            children: Tiles::of(&children),
            shares: Reals::of(shares),
            minima: Reals::of(minima),
            ..Self::EMPTY
        }
    }

    pub fn is_empty(&self) -> bool {
        self.kind == Kind::Empty
    }
}

#[derive(Clone, Debug)]
pub struct TileTree {
    pub root: TileId,
    pub revision: u64,
    /// Boxed only so that a tree of 36 KB is not copied each time it is moved.
    pub slots: Box<[Slot; SLOTS]>,
}

impl TileTree {
    /// What a refused spec hands back: an empty Hidden group in slot 0.
    pub fn lone_empty_root() -> Self {
        let mut tree = Self::blank();
        tree.slots[0] = Slot::tabs(&[], 0, TabBarPlacement::Hidden);
        tree
    }

    /// No tile at all, root 0, revision 0.
    pub fn blank() -> Self {
        Self { root: TileId { slot: 0 }, revision: 0, slots: Box::new([Slot::EMPTY; SLOTS]) }
    }

    /// The occupied slot that an id names, if it names one.
    pub fn get(&self, id: TileId) -> Option<&Slot> {
        let slot = self.slots.get(usize::try_from(id.slot).ok()?)?;
        (!slot.is_empty()).then_some(slot)
    }

    pub fn empty_slots(&self) -> Vec<usize> {
        (0..SLOTS).filter(|&at| self.slots[at].is_empty()).collect()
    }
}

/// Equality of trees as document 01 has it: places past a list's length, lists
/// that a kind does not use and the sign of a zero are passed over.
pub fn same_tree(a: &TileTree, b: &TileTree) -> bool {
    tree_by(a, b, same_number)
}

/// As `same_tree`, but numbers must agree bit for bit.
pub fn same_tree_bits(a: &TileTree, b: &TileTree) -> bool {
    tree_by(a, b, same_bits)
}

fn tree_by(a: &TileTree, b: &TileTree, number: fn(&f64, &f64) -> bool) -> bool {
    a.root == b.root
        && a.revision == b.revision
        && a.slots.iter().zip(b.slots.iter()).all(|(x, y)| slot_by(x, y, number))
}

pub fn same_slot_bits(a: &Slot, b: &Slot) -> bool {
    slot_by(a, b, same_bits)
}

fn slot_by(a: &Slot, b: &Slot, number: fn(&f64, &f64) -> bool) -> bool {
    a.kind == b.kind
        && match a.kind {
            Kind::Empty | Kind::Pane(_) => true,
            Kind::Tabs(_) => a.active == b.active && same_list(&a.panes, &b.panes, |x, y| x == y),
            Kind::Split(_) => {
                same_list(&a.children, &b.children, |x, y| x == y)
                    && same_list(&a.shares, &b.shares, number)
                    && same_list(&a.minima, &b.minima, number)
            }
        }
}

pub fn same_list<T: Copy>(a: &List<T>, b: &List<T>, same: impl Fn(&T, &T) -> bool) -> bool {
    a.len == b.len && a.entries().iter().zip(b.entries()).all(|(x, y)| same(x, y))
}

fn same_number(a: &f64, b: &f64) -> bool {
    a == b || same_bits(a, b)
}

pub fn same_bits(a: &f64, b: &f64) -> bool {
    a.to_bits() == b.to_bits()
}

/// A refusal of document 01's table, with its two details.
#[derive(Clone, Copy, Debug, PartialEq, Eq)]
pub struct Refusal {
    pub number: u64,
    pub details: [u64; 2],
}

impl Refusal {
    pub const BAD_TABLE: Self = Self::plain(1);
    pub const ARENA_FULL: Self = Self::plain(2);
    pub const TOO_WIDE: Self = Self::plain(3);
    pub const NOT_SOUND: Self = Self::plain(4);
    pub const BAD_INPUT: Self = Self::plain(5);
    pub const INVALID_TILE_ID: Self = Self::plain(6);
    pub const INVALID_PANE_ID: Self = Self::plain(7);
    pub const INVALID_TARGET: Self = Self::plain(8);
    pub const INVALID_OPERATION: Self = Self::plain(9);
    pub const REVISION_EXHAUSTED: Self = Self::plain(11);
    pub const EMPTY_TABS: Self = Self::plain(12);

    const fn plain(number: u64) -> Self {
        Self { number, details: [0, 0] }
    }

    pub const fn duplicate_pane(pane: u64) -> Self {
        Self { number: 10, details: [pane, 0] }
    }

    pub const fn too_few_split_children(children: u64) -> Self {
        Self { number: 13, details: [children, 0] }
    }

    pub const fn share_count_mismatch(children: u64, shares: u64) -> Self {
        Self { number: 14, details: [children, shares] }
    }

    pub const fn invalid_share(index: u64) -> Self {
        Self { number: 15, details: [index, 0] }
    }

    pub const fn too_many_split_constraints(children: u64, constraints: u64) -> Self {
        Self { number: 16, details: [children, constraints] }
    }

    pub const fn invalid_split_constraint(index: u64) -> Self {
        Self { number: 17, details: [index, 0] }
    }

    pub const fn invalid_active_tab(active: u64, panes: u64) -> Self {
        Self { number: 18, details: [active, panes] }
    }
}

#[derive(Clone, Copy, Debug, PartialEq, Eq)]
pub enum Action {
    RemovedInvalidNode(TileId),
    RepairedActiveTab(TileId),
    RepairedShares(TileId),
    RepairedConstraints(TileId),
    CollapsedSplit(TileId),
    RemovedDuplicatePane { pane: u64, tile: TileId },
}

#[derive(Clone, Copy, Debug)]
pub enum DockTarget {
    Root,
    Beside { tile: TileId, axis: Axis, placement: Placement, ratio: f64 },
    Into { group: TileId, index: Option<u64> },
}

#[derive(Clone, Copy, Debug)]
pub enum TileOp {
    Activate { pane: u64 },
    Close { pane: u64 },
    SplitPane { pane: u64, axis: Axis, new_pane: u64, placement: Placement, fraction: f64 },
    Move { pane: u64, target: DockTarget },
    Reorder { group: TileId, pane: u64, index: u64 },
}

#[derive(Clone, Copy, Debug)]
pub struct Rect {
    pub x0: f64,
    pub y0: f64,
    pub x1: f64,
    pub y1: f64,
}

#[derive(Clone, Copy, Debug)]
pub struct LayoutInput {
    pub outer: Rect,
    pub handle: f64,
    pub bar: f64,
    pub min_width: f64,
    pub min_height: f64,
}

#[derive(Clone, Copy, Debug)]
pub struct PaneFrame {
    pub pane: u64,
    pub tile: TileId,
    pub rect: Rect,
}

#[derive(Clone, Copy, Debug)]
pub struct TabBarFrame {
    pub group: TileId,
    pub rect: Rect,
    pub placement: TabBarPlacement,
    pub active_pane: u64,
}

#[derive(Clone, Copy, Debug)]
pub struct TabFrame {
    pub group: TileId,
    pub pane: u64,
    pub rect: Rect,
    pub index: u64,
    pub active: bool,
}

#[derive(Clone, Copy, Debug)]
pub struct SplitChildFrame {
    pub split: TileId,
    pub child: TileId,
    pub index: u64,
    pub rect: Rect,
}

#[derive(Clone, Copy, Debug)]
pub struct SplitHandleFrame {
    pub split: TileId,
    pub handle: u64,
    pub axis: Axis,
    pub rect: Rect,
}

#[derive(Clone, Copy, Debug, PartialEq, Eq)]
pub enum FrameItemId {
    Pane(u64),
    TabBar(TileId),
    Tab { group: TileId, pane: u64 },
    SplitHandle { split: TileId, handle: u64 },
}

#[derive(Clone, Debug, Default)]
pub struct Frame {
    pub panes: Vec<PaneFrame>,
    pub tab_bars: Vec<TabBarFrame>,
    pub tabs: Vec<TabFrame>,
    pub split_children: Vec<SplitChildFrame>,
    pub split_handles: Vec<SplitHandleFrame>,
    pub focus_order: Vec<u64>,
    pub paint_order: Vec<FrameItemId>,
}

/// A tree, and why it was refused if it was: what a spec or an operation answers.
#[derive(Clone, Debug)]
pub struct TreeAnswer {
    pub refusal: Option<Refusal>,
    pub tree: TileTree,
}

#[derive(Clone, Debug)]
pub struct RepairAnswer {
    pub refusal: Option<Refusal>,
    pub tree: TileTree,
    pub actions: Vec<Action>,
}

#[derive(Clone, Debug)]
pub struct LayoutAnswer {
    pub refusal: Option<Refusal>,
    pub frame: Frame,
}

#[derive(Clone, Debug)]
pub struct SolveAnswer {
    pub refusal: Option<Refusal>,
    pub lengths: Vec<f64>,
    pub passes: u64,
}
