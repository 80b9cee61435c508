//! Descriptions of trees without tile ids, and the tables that they become.

use alloc::vec::Vec;
use core::slice;

use crate::arena::SLOTS;
use crate::{Axis, PaneId, SplitConstraints, TabBarPlacement};

/// What a tree is made from.
#[derive(Clone, Debug, PartialEq)]
pub enum TileSpec {
    /// One pane.
    Pane(PaneId),
    /// A tab group.
    Tabs {
        /// Its panes, in the order of their tabs.
        panes: Vec<PaneId>,
        /// Which of them is shown.
        active: usize,
        /// Where the bar stands.
        placement: TabBarPlacement,
    },
    /// A split.
    Split {
        /// Its axis.
        axis: Axis,
        /// Its children, in order.
        children: Vec<Self>,
        /// A positive share for each.
        shares: Vec<f64>,
        /// Their smallest lengths.
        constraints: SplitConstraints,
    },
}

impl TileSpec {
    /// One pane.
    #[must_use]
    pub const fn pane(pane: PaneId) -> Self {
        Self::Pane(pane)
    }

    /// A group with its bar on top and its first pane shown.
    pub fn tabs(panes: impl IntoIterator<Item = PaneId>) -> Self {
        Self::tabs_with(panes, 0, TabBarPlacement::Top)
    }

    /// A group with this pane shown and its bar there.
    pub fn tabs_with(
        panes: impl IntoIterator<Item = PaneId>,
        active: usize,
        placement: TabBarPlacement,
    ) -> Self {
        Self::Tabs { panes: panes.into_iter().collect(), active, placement }
    }

    /// A split with these shares and no minima.
    pub fn split(
        axis: Axis,
        children: impl IntoIterator<Item = Self>,
        shares: impl IntoIterator<Item = f64>,
    ) -> Self {
        Self::Split {
            axis,
            children: children.into_iter().collect(),
            shares: shares.into_iter().collect(),
            constraints: SplitConstraints::default(),
        }
    }

    /// A split with equal shares and no minima.
    pub fn equal_split(axis: Axis, children: impl IntoIterator<Item = Self>) -> Self {
        let children: Vec<_> = children.into_iter().collect();
        let shares = alloc::vec![1.0; children.len()];
        Self::split(axis, children, shares)
    }

    /// The table of document 01's bytes that says the same.
    ///
    /// A row's counts have 16 bits. A list past 65,535 entries is cut there and
    /// an active index past it is written so: the spec is refused with the same
    /// number, and its details speak of 65,535.
    #[must_use]
    pub fn table(&self) -> Vec<u8> {
        let specs = self.preorder();
        let count: usize = specs.iter().map(Entries::count).sum();
        let mut bytes = Vec::with_capacity(4 * 4 + 8 * count);
        section(&mut bytes, specs.iter().map(|it| it.row));
        section(&mut bytes, specs.iter().flat_map(|it| it.panes).map(|it| it.0.to_le_bytes()));
        section(&mut bytes, specs.iter().flat_map(|it| it.shares).map(|it| it.to_le_bytes()));
        section(&mut bytes, specs.iter().flat_map(|it| it.minima).map(|it| it.to_le_bytes()));
        bytes
    }

    /// A spec before its children, and these in order.
    fn preorder(&self) -> Vec<Entries<'_>> {
        // Room for what is accepted; more is refused.
        let mut specs = Vec::with_capacity(SLOTS);
        // A stack of its own, since a spec may be nested deeper than calls can be.
        let mut waiting = Vec::with_capacity(SLOTS);
        waiting.push(self);
        while let Some(spec) = waiting.pop() {
            specs.push(spec.entries());
            if let Self::Split { children, .. } = spec {
                waiting.extend(children[..short(children.len()).into()].iter().rev());
            }
        }
        specs
    }

    fn entries(&self) -> Entries<'_> {
        match self {
            Self::Pane(pane) => {
                let row = row([0, 0], [1, 0, 0]);
                Entries { row, panes: slice::from_ref(pane), shares: &[], minima: &[] }
            }
            Self::Tabs { panes, active, placement } => {
                let count = short(panes.len());
                let row = row([1, placement.code() as u8], [count, short(*active), 0]);
                Entries { row, panes: &panes[..count.into()], shares: &[], minima: &[] }
            }
            Self::Split { axis, children, shares, constraints } => {
                let minima = &constraints.min_major;
                let counts = [short(children.len()), short(shares.len()), short(minima.len())];
                let row = row([2, axis.code() as u8], counts);
                let [_, shares_count, minima_count] = counts.map(usize::from);
                let (shares, minima) = (&shares[..shares_count], &minima[..minima_count]);
                Entries { row, panes: &[], shares, minima }
            }
        }
    }
}

/// What one spec has in each of the four sections.
struct Entries<'a> {
    row: [u8; 8],
    panes: &'a [PaneId],
    shares: &'a [f64],
    minima: &'a [f64],
}

impl Entries<'_> {
    const fn count(&self) -> usize {
        1 + self.panes.len() + self.shares.len() + self.minima.len()
    }
}

/// A section's length and its entries.
fn section(bytes: &mut Vec<u8>, entries: impl Iterator<Item = [u8; 8]>) {
    let start = bytes.len();
    bytes.extend_from_slice(&[0; 4]);
    entries.for_each(|entry| bytes.extend_from_slice(&entry));
    let count = (bytes.len() - start) / 8;
    // More than 2^32 entries do not fit in memory beside their spec.
    bytes[start..start + 4].copy_from_slice(&(count as u32).to_le_bytes());
}

fn row(codes: [u8; 2], counts: [u16; 3]) -> [u8; 8] {
    let [kind, mode] = codes;
    let [[a, b], [c, d], [e, f]] = counts.map(u16::to_le_bytes);
    [kind, mode, a, b, c, d, e, f]
}

fn short(count: usize) -> u16 {
    u16::try_from(count).unwrap_or(u16::MAX)
}
