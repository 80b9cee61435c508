//! What the readings of document 01 say of spec tables.

mod common;

use common::*;
use oracle::generate::tables::{Parts, Row};
use oracle::value::Kind;

fn pane() -> Row {
    Row { kind: 0, mode: 0, count: 1, extra: 0, minima: 0 }
}

fn group(count: u16, active: u16) -> Row {
    Row { kind: 1, mode: 1, count, extra: active, minima: 0 }
}

fn split_row(count: u16, shares: u16, minima: u16) -> Row {
    Row { kind: 2, mode: 0, count, extra: shares, minima }
}

/// A table with these rows, panes 0, 1, ..., and these numbers.
fn parts(rows: Vec<Row>, shares: &[f64], minima: &[f64]) -> Parts {
    let panes = rows.iter().filter(|row| row.kind != 2).map(|row| u64::from(row.count)).sum();
    Parts { rows, panes: (0..panes).collect(), shares: shares.to_vec(), minima: minima.to_vec() }
}

fn refuses(bytes: &[u8], number: u64, details: [u64; 2]) {
    on_both(|engine| {
        let answer = engine.from_spec(bytes);
        let refusal = answer.refusal.map_or((0, [0, 0]), |it| (it.number, it.details));
        assert_eq!(refusal, (number, details), "{}", engine.name());
        if number != 0 {
            assert_eq!(answer.tree.slots[0].kind, Kind::Tabs(Hidden));
            assert_eq!(answer.tree.empty_slots().len(), 63);
        }
    });
}

fn says(parts: Parts, number: u64, details: [u64; 2]) {
    refuses(&parts.bytes(), number, details);
}

fn two_panes(shares: &[f64], minima: &[f64]) -> Parts {
    let row = split_row(2, shares.len() as u16, minima.len() as u16);
    parts(vec![row, pane(), pane()], shares, minima)
}

#[test]
fn row_rules() {
    refuses(&[], 1, [0, 0]);
    refuses(&[0; 16], 1, [0, 0]);
    says(parts(vec![pane()], &[], &[]), 0, [0, 0]);
    let mut bytes = parts(vec![pane()], &[], &[]).bytes();
    bytes.push(0);
    refuses(&bytes, 1, [0, 0]);
    bytes.truncate(bytes.len() - 2);
    refuses(&bytes, 1, [0, 0]);
    says(parts(vec![pane(), pane()], &[], &[]), 1, [0, 0]);
    says(parts(vec![split_row(3, 3, 0), pane(), pane()], &[1.0; 3], &[]), 1, [0, 0]);
    says(parts(vec![pane()], &[1.0], &[]), 1, [0, 0]);
    refuses(&[255; 64], 1, [0, 0]);
}

#[test]
fn the_checks_of_the_rust() {
    says(parts(vec![split_row(0, 0, 0)], &[], &[]), 13, [0, 0]);
    says(parts(vec![split_row(1, 1, 0), pane()], &[1.0], &[]), 13, [1, 0]);
    says(parts(vec![group(0, 9)], &[], &[]), 12, [0, 0]);
    says(parts(vec![group(3, 3)], &[], &[]), 18, [3, 3]);
    says(parts(vec![group(3, 65535)], &[], &[]), 18, [65535, 3]);
    says(two_panes(&[1.0; 17], &[]), 14, [2, 17]);
    says(two_panes(&[1.0, -0.0], &[]), 15, [1, 0]);
    says(two_panes(&[f64::NAN, 0.0], &[]), 15, [0, 0]);
    says(two_panes(&[1.0, 1.0], &[0.0; 3]), 16, [2, 3]);
    says(two_panes(&[1.0, 1.0], &[-0.0]), 0, [0, 0]);
    says(two_panes(&[1.0, 1.0], &[0.0, f64::NAN]), 17, [1, 0]);
    let mut twice = two_panes(&[1.0, 1.0], &[]);
    twice.panes = vec![u64::MAX, u64::MAX];
    says(twice, 10, [u64::MAX, 0]);
}

#[test]
fn the_first_fault_in_preorder_is_named() {
    let rows = vec![split_row(2, 2, 0), split_row(2, 1, 0), pane(), pane(), group(0, 0)];
    says(parts(rows.clone(), &[1.0; 3], &[]), 14, [2, 1]);
    says(parts(rows, &[1.0, 0.0, 1.0], &[]), 15, [1, 0]);
}

#[test]
fn sixteen_and_seventeen() {
    let wide = |count: u16| {
        let mut rows = vec![split_row(count, count, 0)];
        rows.extend((0..count).map(|_| pane()));
        parts(rows, &vec![1.0; count as usize], &[])
    };
    says(wide(16), 0, [0, 0]);
    says(wide(17), 3, [0, 0]);
    says(parts(vec![group(16, 0)], &[], &[]), 0, [0, 0]);
    says(parts(vec![group(17, 99)], &[], &[]), 3, [0, 0]);
    // 3 for a later row comes before the Rust's refusal of an earlier one.
    let rows = vec![split_row(2, 1, 0), group(17, 0), pane()];
    says(parts(rows, &[1.0], &[]), 3, [0, 0]);
}

/// A chain of splits of a pane and the rest, with `rows` rows (an odd number).
fn chain(rows: usize, last: Row) -> Parts {
    let mut all = Vec::new();
    while all.len() + 1 < rows {
        let axis = (all.len() / 2 % 2) as u8;
        all.extend([Row { mode: axis, ..split_row(2, 2, 0) }, pane()]);
    }
    all.push(last);
    let shares = vec![1.0; rows - 1];
    parts(all, &shares, &[])
}

#[test]
fn sixty_four_and_sixty_five_rows() {
    let mut even = chain(63, pane());
    even.rows[0] = split_row(3, 3, 0);
    even.rows.insert(1, pane());
    even.shares.push(1.0);
    even.panes.push(63);
    assert_eq!(even.rows.len(), 64);
    says(even, 0, [0, 0]);
    says(chain(65, pane()), 2, [0, 0]);
    // 1 is looked for in all rows first, and 2 comes before 3 and the rest.
    says(chain(65, group(17, 0)), 2, [0, 0]);
    says(chain(65, Row { mode: 9, ..group(1, 0) }), 1, [0, 0]);
}

#[test]
fn three_after_repair() {
    let nest = |outer: u16| {
        let mut rows = vec![split_row(outer, outer, 0)];
        rows.extend((1..outer).map(|_| pane()));
        rows.extend([split_row(2, 2, 0), pane(), pane()]);
        parts(rows, &vec![1.0; outer as usize + 2], &[])
    };
    says(nest(15), 0, [0, 0]);
    says(nest(16), 3, [0, 0]);
}

#[test]
fn a_tile_stands_in_the_slot_of_its_row() {
    on_both(|engine| {
        let rows = vec![split_row(2, 2, 1), group(2, 1), pane()];
        let tree = engine.from_spec(&parts(rows, &[2.0, 3.0], &[-0.0]).bytes()).tree;
        assert_eq!(tree.root, id(0));
        assert_eq!(children(&tree.slots[0]), [1, 2]);
        assert_eq!(tree.slots[0].minima.len, 0);
        assert_eq!(tree.slots[1].panes.entries(), [0, 1]);
        assert_eq!(tree.slots[2].kind, Kind::Pane(2));
    });
}
