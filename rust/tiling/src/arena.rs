//! A tree as the library takes it: columns of numbers.

use alloc::boxed::Box;

/// How many tiles there can be.
pub const SLOTS: usize = 64;
/// How many entries a list can have.
pub const WIDTH: usize = 16;

/// The root's slot and the revision.
pub type Top = [u64; 2];
/// For each slot: kind, mode, pane, active, lengths of ids, shares and minima, 0.
pub type Heads = [[u64; 8]; SLOTS];
/// For each slot: a group's panes or a split's children.
pub type Ids = [[u64; WIDTH]; SLOTS];
/// For each slot: a split's shares, or its minima.
pub type Reals = [[f64; WIDTH]; SLOTS];

/// The places of a head.
pub mod head {
    /// 0 empty, 1 pane, 2 group, 3 split.
    pub const KIND: usize = 0;
    /// A group's placement (0 Hidden, 1 Top, 2 Bottom, 3 Left, 4 Right) or a
    /// split's axis (0 horizontal, 1 vertical).
    pub const MODE: usize = 1;
    /// A pane's id.
    pub const PANE: usize = 2;
    /// A group's active index.
    pub const ACTIVE: usize = 3;
    /// How many ids are in use.
    pub const IDS: usize = 4;
    /// How many shares are in use.
    pub const SHARES: usize = 5;
    /// How many minima are in use.
    pub const MINIMA: usize = 6;
}

/// The values of [`head::KIND`].
pub mod kind {
    /// No tile.
    pub const EMPTY: u64 = 0;
    /// A pane.
    pub const PANE: u64 = 1;
    /// A tab group.
    pub const GROUP: u64 = 2;
    /// A split.
    pub const SPLIT: u64 = 3;
}

/// 64 slots of numbers. Any numbers may stand here: what is no tree is refused
/// by the calls, or repaired.
#[derive(Clone, Debug)]
#[repr(C)]
pub struct Arena {
    /// Root and revision.
    pub top: Top,
    /// What each slot is.
    pub heads: Heads,
    /// Panes of groups, children of splits.
    pub ids: Ids,
    /// Shares of splits.
    pub shares: Reals,
    /// Minima of splits.
    pub minima: Reals,
}

impl Arena {
    /// No tile at all, root 0, revision 0.
    pub const BLANK: Self = Self {
        top: [0; 2],
        heads: [[0; 8]; SLOTS],
        ids: [[0; WIDTH]; SLOTS],
        shares: [[0.0; WIDTH]; SLOTS],
        minima: [[0.0; WIDTH]; SLOTS],
    };

    /// [`Self::BLANK`], boxed: an arena has 28 KB.
    #[must_use]
    pub fn boxed() -> Box<Self> {
        Box::new(Self::BLANK)
    }

    /// Whether every number is the same, bit for bit: more than equality of
    /// trees, which passes over places that are not in use.
    #[must_use]
    pub fn same_bits(&self, other: &Self) -> bool {
        self.top == other.top
            && self.heads == other.heads
            && self.ids == other.ids
            && same_reals(&self.shares, &other.shares)
            && same_reals(&self.minima, &other.minima)
    }
}

fn same_reals(a: &Reals, b: &Reals) -> bool {
    let pairs = a.as_flattened().iter().zip(b.as_flattened());
    pairs.into_iter().all(|(x, y)| x.to_bits() == y.to_bits())
}
