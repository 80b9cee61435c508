//! Document 01's refusals.

use core::fmt;

use crate::PaneId;
use crate::boundary::Out;

/// Why a call was refused. The library's 18 refusals stand in one enum, the
/// specs' among them, each with document 01's number and two details.
#[derive(Clone, Copy, Debug, PartialEq, Eq, Hash)]
#[non_exhaustive]
pub enum TileError {
    /// 1: the spec's bytes break the row rules.
    BadTable,
    /// 2: more new tiles are needed than there are empty slots.
    ArenaFull,
    /// 3: a list would pass 16 entries.
    TooWide,
    /// 4: the tree is not sound.
    NotSound,
    /// 5: layout or solver numbers out of range; or a number of an arena that
    /// is no kind, placement or axis.
    BadInput,
    /// 6: there is no such tile.
    InvalidTileId,
    /// 7: there is no such pane.
    InvalidPaneId,
    /// 8: the target cannot be docked to.
    InvalidTarget,
    /// 9: the split fraction is not between 0 and 1.
    InvalidOperation,
    /// 10: the pane is there already.
    DuplicatePane(PaneId),
    /// 11: the revision is the last one.
    RevisionExhausted,
    /// 12: a group without panes.
    EmptyTabs,
    /// 13: a split of fewer than two.
    TooFewSplitChildren {
        /// How many.
        children: u64,
    },
    /// 14: not as many shares as children.
    ShareCountMismatch {
        /// How many children.
        children: u64,
        /// How many shares.
        shares: u64,
    },
    /// 15: a share that is not finite or not positive.
    InvalidShare {
        /// Its place in its split.
        index: u64,
    },
    /// 16: more minima than children.
    TooManySplitConstraints {
        /// How many children.
        children: u64,
        /// How many minima.
        constraints: u64,
    },
    /// 17: a minimum that is not finite or negative.
    InvalidSplitConstraint {
        /// Its place in its split.
        index: u64,
    },
    /// 18: no pane of the group is the active one.
    InvalidActiveTab {
        /// The index given.
        active: u64,
        /// How many panes the group has.
        panes: u64,
    },
}

/// The original's name for what a spec is refused with.
pub type TileSpecError = TileError;

impl TileError {
    /// Document 01's number, 1 to 18.
    #[must_use]
    pub const fn number(&self) -> u64 {
        match self {
            Self::BadTable => 1,
            Self::ArenaFull => 2,
            Self::TooWide => 3,
            Self::NotSound => 4,
            Self::BadInput => 5,
            Self::InvalidTileId => 6,
            Self::InvalidPaneId => 7,
            Self::InvalidTarget => 8,
            Self::InvalidOperation => 9,
            Self::DuplicatePane(_) => 10,
            Self::RevisionExhausted => 11,
            Self::EmptyTabs => 12,
            Self::TooFewSplitChildren { .. } => 13,
            Self::ShareCountMismatch { .. } => 14,
            Self::InvalidShare { .. } => 15,
            Self::TooManySplitConstraints { .. } => 16,
            Self::InvalidSplitConstraint { .. } => 17,
            Self::InvalidActiveTab { .. } => 18,
        }
    }

    /// Document 01's two details, zero unless its table names them.
    #[must_use]
    pub const fn details(&self) -> [u64; 2] {
        match *self {
            Self::DuplicatePane(pane) => [pane.0, 0],
            Self::TooFewSplitChildren { children } => [children, 0],
            Self::ShareCountMismatch { children, shares } => [children, shares],
            Self::InvalidShare { index } | Self::InvalidSplitConstraint { index } => [index, 0],
            Self::TooManySplitConstraints { children, constraints } => [children, constraints],
            Self::InvalidActiveTab { active, panes } => [active, panes],
            _ => [0, 0],
        }
    }

    /// The refusal with this number and these details, if there is one.
    #[must_use]
    pub const fn of_number(number: u64, details: [u64; 2]) -> Option<Self> {
        let [first, second] = details;
        Some(match number {
            1 => Self::BadTable,
            2 => Self::ArenaFull,
            3 => Self::TooWide,
            4 => Self::NotSound,
            5 => Self::BadInput,
            6 => Self::InvalidTileId,
            7 => Self::InvalidPaneId,
            8 => Self::InvalidTarget,
            9 => Self::InvalidOperation,
            10 => Self::DuplicatePane(PaneId(first)),
            11 => Self::RevisionExhausted,
            12 => Self::EmptyTabs,
            13 => Self::TooFewSplitChildren { children: first },
            14 => Self::ShareCountMismatch { children: first, shares: second },
            15 => Self::InvalidShare { index: first },
            16 => Self::TooManySplitConstraints { children: first, constraints: second },
            17 => Self::InvalidSplitConstraint { index: first },
            18 => Self::InvalidActiveTab { active: first, panes: second },
            _ => return None,
        })
    }
}

/// What a call's number means: accepted, or why not.
pub(crate) fn answer(number: u64, out: &Out) -> Result<(), TileError> {
    match number {
        0 => Ok(()),
        number => {
            let error = TileError::of_number(number, [out[0], out[1]]);
            Err(error.expect("the library's refusals are numbered 1 to 18"))
        }
    }
}

impl fmt::Display for TileError {
    fn fmt(&self, to: &mut fmt::Formatter<'_>) -> fmt::Result {
        match self {
            Self::BadTable => to.write_str("the spec's bytes are no table"),
            Self::ArenaFull => to.write_str("no slot is left for a new tile"),
            Self::TooWide => to.write_str("a list would pass 16 entries"),
            Self::NotSound => to.write_str("the tree is not sound"),
            Self::BadInput => to.write_str("a number is out of range"),
            Self::InvalidTileId => to.write_str("there is no such tile"),
            Self::InvalidPaneId => to.write_str("there is no such pane"),
            Self::InvalidTarget => to.write_str("the target cannot be docked to"),
            Self::InvalidOperation => to.write_str("the fraction is not between 0 and 1"),
            Self::DuplicatePane(pane) => write!(to, "{pane} is there already"),
            Self::RevisionExhausted => to.write_str("the revision is the last one"),
            Self::EmptyTabs => to.write_str("a tab group has no pane"),
            Self::TooFewSplitChildren { children } => {
                write!(to, "a split has fewer than two children: {children}")
            }
            Self::ShareCountMismatch { children, shares } => {
                write!(to, "a split of {children} children has {shares} shares")
            }
            Self::InvalidShare { index } => {
                write!(to, "share {index} of a split is not finite and positive")
            }
            Self::TooManySplitConstraints { children, constraints } => {
                write!(to, "a split of {children} children has {constraints} minima")
            }
            Self::InvalidSplitConstraint { index } => {
                write!(to, "minimum {index} of a split is negative or not finite")
            }
            Self::InvalidActiveTab { active, panes } => {
                write!(to, "tab {active} of a group of {panes} cannot be active")
            }
        }
    }
}

impl core::error::Error for TileError {}
