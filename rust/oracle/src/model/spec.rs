//! From spec bytes to a tree: refusals in document 01's order, tiles, repair.

use super::numbers::{good_minimum, good_share};
use super::repair::repaired;
use super::table::{PANE, Row, SPLIT, TABS, Table, panes_of, read, shares_of};
use crate::value::{
    Axis, Kind, Refusal, SLOTS, Slot, TabBarPlacement, TileId, TileTree, TreeAnswer, WIDTH,
};

pub fn from_spec(bytes: &[u8]) -> TreeAnswer {
    match built(bytes) {
        Ok(tree) => TreeAnswer { refusal: None, tree },
        Err(refusal) => TreeAnswer { refusal: Some(refusal), tree: TileTree::lone_empty_root() },
    }
}

fn built(bytes: &[u8]) -> Result<TileTree, Refusal> {
    let table = read(bytes).ok_or(Refusal::BAD_TABLE)?;
    if table.rows.len() > SLOTS {
        return Err(Refusal::ARENA_FULL);
    }
    if table.rows.iter().any(|row| row.count > WIDTH as u64) {
        return Err(Refusal::TOO_WIDE);
    }
    check_rows(&table)?;
    let mut builder =
        Builder { table: &table, row: 0, used: Used::default(), tree: TileTree::blank() };
    builder.build();
    repaired(&builder.tree).map(|(tree, _)| tree)
}

/// How much of each section the rows before have used.
#[derive(Clone, Copy, Default)]
struct Used {
    panes: usize,
    shares: usize,
    minima: usize,
}

impl Used {
    fn panes<'a>(&self, row: &Row, table: &'a Table) -> &'a [u64] {
        &table.panes[self.panes..self.panes + panes_of(row) as usize]
    }

    fn shares<'a>(&self, row: &Row, table: &'a Table) -> &'a [f64] {
        &table.shares[self.shares..self.shares + shares_of(row) as usize]
    }

    fn minima<'a>(&self, row: &Row, table: &'a Table) -> &'a [f64] {
        &table.minima[self.minima..self.minima + row.minima as usize]
    }

    fn after(&self, row: &Row) -> Self {
        Self {
            panes: self.panes + panes_of(row) as usize,
            shares: self.shares + shares_of(row) as usize,
            minima: self.minima + row.minima as usize,
        }
    }
}

/// The Rust's checks. Rows stand in preorder, so a walk over them is its walk.
fn check_rows(table: &Table) -> Result<(), Refusal> {
    let mut used = Used::default();
    let mut seen = Vec::new();
    for row in &table.rows {
        match row.kind {
            SPLIT => check_split(row, used.shares(row, table), used.minima(row, table))?,
            TABS => check_tabs(row)?,
            _ => {}
        }
        for &pane in used.panes(row, table) {
            if seen.contains(&pane) {
                return Err(Refusal::duplicate_pane(pane));
            }
            seen.push(pane);
        }
        used = used.after(row);
    }
    Ok(())
}

fn check_tabs(row: &Row) -> Result<(), Refusal> {
    if row.count == 0 {
        return Err(Refusal::EMPTY_TABS);
    }
    if row.extra >= row.count {
        return Err(Refusal::invalid_active_tab(row.extra, row.count));
    }
    Ok(())
}

fn check_split(row: &Row, shares: &[f64], minima: &[f64]) -> Result<(), Refusal> {
    if row.count < 2 {
        return Err(Refusal::too_few_split_children(row.count));
    }
    if row.extra != row.count {
        return Err(Refusal::share_count_mismatch(row.count, row.extra));
    }
    if let Some(at) = shares.iter().position(|&share| !good_share(share)) {
        return Err(Refusal::invalid_share(at as u64));
    }
    if row.minima > row.count {
        return Err(Refusal::too_many_split_constraints(row.count, row.minima));
    }
    if let Some(at) = minima.iter().position(|&minimum| !good_minimum(minimum)) {
        return Err(Refusal::invalid_split_constraint(at as u64));
    }
    Ok(())
}

struct Builder<'a> {
    table: &'a Table,
    row: usize,
    used: Used,
    tree: TileTree,
}

impl Builder<'_> {
    /// Makes the tile of the next row, and those under it: slot = row number.
    fn build(&mut self) -> u64 {
        let slot = self.row;
        let row = self.table.rows[slot];
        let used = self.used;
        self.row += 1;
        self.used = used.after(&row);
        self.tree.slots[slot] = match row.kind {
            PANE => Slot::pane(used.panes(&row, self.table)[0]),
            TABS => Slot::tabs(used.panes(&row, self.table), row.extra, bar(row.mode)),
            _ => {
                let children: Vec<u64> = (0..row.count).map(|_| self.build()).collect();
                let (shares, minima) =
                    (used.shares(&row, self.table), used.minima(&row, self.table));
                Slot::split(axis(row.mode), &children, shares, minima)
            }
        };
        debug_assert!(self.tree.slots[slot].kind != Kind::Empty);
        self.tree.root = TileId { slot: 0 };
        slot as u64
    }
}

fn bar(mode: u8) -> TabBarPlacement {
    match mode {
        0 => TabBarPlacement::Hidden,
        1 => TabBarPlacement::Top,
        2 => TabBarPlacement::Bottom,
        3 => TabBarPlacement::Left,
        _ => TabBarPlacement::Right,
    }
}

fn axis(mode: u8) -> Axis {
    if mode == 0 { Axis::Horizontal } else { Axis::Vertical }
}
