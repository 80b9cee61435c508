//! What the readings of document 01 say of operations, on the original (with
//! document 01's own parts around it) and on the model.
#![cfg(original)]

mod common;

use common::*;
use oracle::check::Kind as Case;
use oracle::engine::Engine;
use oracle::generate::operations::operation;
use oracle::generate::trees::sound_tree;
use oracle::original::{Original, bare_apply};
use oracle::value::{DockTarget, Kind, LayoutInput, Rect, Slot, TileOp, TileTree, same_tree_bits};

/// The number that both answer; a refusal hands back the tree as given.
fn answers(tree: &TileTree, op: TileOp, expected: u64) {
    on_both(|engine| {
        let answer = engine.apply(tree, &op);
        assert_eq!(number(&answer), expected, "{} on {op:?}", engine.name());
        if expected != 0 {
            assert!(same_tree_bits(&answer.tree, tree));
        }
    });
}

fn wide_row(panes: usize) -> TileTree {
    row(&vec![1.0; panes])
}

#[test]
fn the_fresh_empty_group_takes_the_lowest_slot_empty_at_the_start() {
    on_both(|engine| {
        let answer = engine.apply(&tree(&[Slot::pane(5)]), &TileOp::Close { pane: 5 });
        assert_eq!(number(&answer), 0);
        assert_eq!(answer.tree.root, id(1));
        assert_eq!(answer.tree.slots[1].kind, Kind::Tabs(Hidden));
        assert_eq!(answer.tree.slots[0].kind, Kind::Empty);
        assert_eq!(answer.tree.revision, 1);
    });
}

#[test]
fn close_differs_from_the_original_on_the_last_pane() {
    let lone = tree(&[Slot::pane(5)]);
    answers(&lone, TileOp::Close { pane: 6 }, 7);
    answers(&lone, TileOp::Close { pane: 5 }, 0);
    for pane in [5, 6] {
        let said = bare_apply(&lone, &TileOp::Close { pane });
        assert_eq!(said, Err("CannotCloseLastPane".to_string()));
    }
}

#[test]
fn a_move_within_a_split_of_sixteen_is_too_wide_here_and_not_there() {
    let op = move_pane(1, beside(16, Horizontal, After, 0.5));
    answers(&wide_row(16), op, 3);
    assert_eq!(bare_apply(&wide_row(16), &op), Ok(()));
    answers(&wide_row(15), op_to_last(15), 0);
}

fn op_to_last(panes: u64) -> TileOp {
    move_pane(1, beside(panes, Horizontal, After, 0.5))
}

#[test]
fn a_move_within_a_group_of_sixteen_is_accepted() {
    let panes: Vec<u64> = (1..=16).collect();
    let full = tree(&[Slot::tabs(&panes, 3, Top)]);
    answers(&full, move_pane(2, into(0, Some(9))), 0);
    let mut two = full.clone();
    two.slots[1] = Slot::pane(99);
    two.slots[2] = Slot::split(Vertical, &[0, 1], &[1.0, 1.0], &[]);
    two.root = id(2);
    answers(&two, move_pane(99, into(0, None)), 3);
}

/// A horizontal row of `panes`, and in its last place a vertical split of
/// (a horizontal one of two) and pane 103.
fn melts_when_103_goes(panes: u64) -> TileTree {
    let children: Vec<u64> = (1..=panes + 1).collect();
    let mut slots = vec![Slot::split(Horizontal, &children, &vec![1.0; children.len()], &[])];
    slots.extend((1..=panes).map(Slot::pane));
    let at = slots.len() as u64;
    slots.push(Slot::split(Vertical, &[at + 1, at + 4], &[1.0, 1.0], &[]));
    slots.push(Slot::split(Horizontal, &[at + 2, at + 3], &[1.0, 1.0], &[]));
    slots.extend([101, 102, 103].map(Slot::pane));
    tree(&slots)
}

#[test]
fn close_and_move_meet_sixteen_after_repair_by_melting() {
    answers(&melts_when_103_goes(15), TileOp::Close { pane: 103 }, 3);
    answers(&melts_when_103_goes(14), TileOp::Close { pane: 103 }, 0);
    answers(&melts_when_103_goes(15), move_pane(103, beside(1, Vertical, After, 0.5)), 3);
}

/// As before with the revision at its end: 11 comes before the 3 of a repair,
/// and after the 3 of an insertion.
#[test]
fn the_revisions_end_stands_between_the_two_threes() {
    let mut melts = melts_when_103_goes(15);
    melts.revision = u64::MAX;
    answers(&melts, TileOp::Close { pane: 103 }, 11);
    let mut wide = wide_row(16);
    wide.revision = u64::MAX;
    answers(&wide, split(1, Horizontal, 50, After, 0.5), 3);
    answers(&wide, split(1, Vertical, 50, After, 0.5), 11);
}

/// Sixty-three tiles: a horizontal root of 16, three of them vertical splits.
fn one_slot_left() -> TileTree {
    let mut slots = vec![Slot::EMPTY; 1];
    let mut children: Vec<u64> = Vec::new();
    for group in 0..3 {
        let at = slots.len() as u64;
        let leaves = if group == 2 { 14 } else { 16 };
        let inner: Vec<u64> = (at + 1..=at + leaves).collect();
        children.push(at);
        slots.push(Slot::split(Vertical, &inner, &vec![1.0; inner.len()], &[]));
        slots.extend(inner.iter().map(|&pane| Slot::pane(pane)));
    }
    while slots.len() < 63 {
        children.push(slots.len() as u64);
        slots.push(Slot::pane(slots.len() as u64));
    }
    slots[0] = Slot::split(Horizontal, &children, &vec![1.0; children.len()], &[]);
    tree(&slots)
}

#[test]
fn a_move_to_the_root_needs_two_slots_even_where_one_melts() {
    let mut tree = one_slot_left();
    assert_eq!(tree.empty_slots().len(), 1);
    answers(&tree, move_pane(5, DockTarget::Root), 2);
    answers(&tree, move_pane(5, beside(10, Vertical, After, 0.5)), 3);
    answers(&tree, move_pane(5, beside(40, Vertical, After, 0.5)), 0);
    answers(&tree, move_pane(5, beside(40, Horizontal, After, 0.5)), 2);
    tree.revision = u64::MAX;
    answers(&tree, move_pane(5, DockTarget::Root), 2);
    answers(&tree, TileOp::Activate { pane: 5 }, 0);
}

#[test]
fn the_order_of_a_moves_refusals() {
    let tree = row(&[1.0, 1.0, 1.0]);
    answers(&tree, move_pane(9, beside(50, Vertical, After, 2.0)), 7);
    answers(&tree, move_pane(1, beside(50, Vertical, After, 2.0)), 8);
    answers(&tree, move_pane(1, beside(50, Vertical, After, 0.5)), 6);
    answers(&tree, move_pane(1, beside(64, Vertical, After, 0.5)), 6);
    answers(&tree, move_pane(1, beside(u64::MAX, Vertical, After, 0.5)), 6);
    answers(&tree, move_pane(1, into(2, None)), 8);
    answers(&tree, move_pane(1, into(50, None)), 6);
    answers(&tree, move_pane(1, beside(1, Vertical, After, 0.5)), 6);
    answers(&tree, move_pane(1, into(1, None)), 8);
}

#[test]
fn a_dead_target_comes_before_a_full_arena() {
    let mut tree = one_slot_left();
    tree.slots[63] = Slot::pane(1000);
    let third = &mut tree.slots[35];
    third.children.at[14] = id(63);
    third.shares.at[14] = 1.0;
    third.children.len = 15;
    third.shares.len = 15;
    assert!(tree.empty_slots().is_empty());
    answers(&tree, move_pane(1000, beside(63, Vertical, After, 0.5)), 6);
    answers(&tree, move_pane(1000, beside(62, Vertical, After, 0.5)), 2);
}

/// A horizontal split of pane 1 and a group of pane 2 alone.
fn beside_a_group_of_one() -> TileTree {
    tree(&[
        Slot::split(Horizontal, &[1, 2], &[3.0, 1.0], &[]),
        Slot::pane(1),
        Slot::tabs(&[2], 0, Left),
    ])
}

#[test]
fn own_group_emptied_by_a_move() {
    on_both(|engine| {
        let given = beside_a_group_of_one();
        let same = engine.apply(&given, &move_pane(2, into(2, Some(7))));
        assert_eq!(number(&same), 0);
        let mut expected = given.clone();
        expected.revision = 1;
        assert!(same_tree_bits(&same.tree, &expected), "only the revision changes");

        let alone = engine.apply(&given, &move_pane(2, beside(2, Horizontal, Before, 0.25)));
        assert_eq!(number(&alone), 0);
        assert_eq!(children(&alone.tree.slots[0]), [1, 3]);
        assert_eq!(reals(&alone.tree.slots[0].shares), [3.0, 0.25]);
        assert_eq!(alone.tree.slots[3].kind, Kind::Pane(2));
        assert_eq!(alone.tree.slots[2].kind, Kind::Empty);

        let across = engine.apply(&given, &move_pane(2, beside(2, Vertical, Before, 0.25)));
        assert_eq!(reals(&across.tree.slots[0].shares), [3.0, 1.0], "the place keeps its share");
        assert_eq!(children(&across.tree.slots[0]), [1, 3]);

        let root =
            engine.apply(&tree(&[Slot::tabs(&[2], 0, Left)]), &move_pane(2, DockTarget::Root));
        assert_eq!(number(&root), 0);
        assert_eq!(root.tree.root, id(1), "a new slot");
        assert_eq!(root.tree.slots[1].kind, Kind::Tabs(Top));
    });
}

#[test]
fn the_lone_empty_root() {
    let mut lone = TileTree::blank();
    lone.root = id(7);
    lone.slots[7] = Slot::tabs(&[], 0, Hidden);
    answers(&lone, TileOp::Activate { pane: 1 }, 7);
    answers(&lone, TileOp::Close { pane: 1 }, 7);
    answers(&lone, move_pane(1, DockTarget::Root), 7);
    answers(&lone, split(1, Vertical, 2, After, 0.5), 7);
    answers(&lone, split(1, Vertical, 2, After, 1.0), 9);
    answers(&lone, TileOp::Reorder { group: id(7), pane: 1, index: 0 }, 7);
    answers(&lone, TileOp::Reorder { group: id(0), pane: 1, index: 0 }, 6);
    on_both(|engine| {
        let answer = engine.layout(&lone, &unit_input());
        assert_eq!(answer.refusal, None);
        let frame = answer.frame;
        assert!(frame.panes.is_empty() && frame.focus_order.is_empty());
        assert!(frame.paint_order.is_empty() && frame.tab_bars.is_empty());
    });
}

fn unit_input() -> LayoutInput {
    let outer = Rect { x0: 0.0, y0: 0.0, x1: 1.0, y1: 1.0 };
    LayoutInput { outer, handle: 0.0, bar: 0.0, min_width: 0.0, min_height: 0.0 }
}

#[test]
fn an_empty_root_of_another_make_is_unsound() {
    let empty_root = |slot: Slot| tree(&[slot]);
    answers(&empty_root(Slot::tabs(&[], 0, Top)), TileOp::Activate { pane: 1 }, 4);
    answers(&empty_root(Slot::tabs(&[], 1, Hidden)), TileOp::Activate { pane: 1 }, 4);
    let mut second = empty_root(Slot::tabs(&[], 0, Hidden));
    second.slots[9] = Slot::pane(4);
    answers(&second, TileOp::Activate { pane: 4 }, 4);
}

#[test]
fn the_last_revision() {
    let mut tree = tree(&[Slot::tabs(&[1, 2, 3], 1, Top)]);
    tree.revision = u64::MAX;
    answers(&tree, TileOp::Activate { pane: 2 }, 0);
    answers(&tree, TileOp::Activate { pane: 3 }, 11);
    answers(&tree, TileOp::Reorder { group: id(0), pane: 3, index: 9 }, 0);
    answers(&tree, TileOp::Reorder { group: id(0), pane: 3, index: 0 }, 11);
    answers(&tree, TileOp::Close { pane: 3 }, 11);
    answers(&tree, TileOp::Close { pane: 9 }, 7);
    answers(&tree, split(1, Vertical, 2, After, 0.5), 10);
    tree.revision = u64::MAX - 1;
    answers(&tree, TileOp::Activate { pane: 3 }, 0);
}

#[test]
fn a_move_that_ends_where_it_began_is_a_change() {
    on_both(|engine| {
        let given = tree(&[Slot::tabs(&[1, 2, 3], 1, Top)]);
        let answer = engine.apply(&given, &move_pane(2, into(0, Some(1))));
        assert_eq!((number(&answer), answer.tree.revision), (0, 1));
        assert_eq!(answer.tree.slots[0].panes.entries(), [1, 2, 3]);
        assert_eq!(answer.tree.slots[0].active, 1);
    });
}

#[test]
fn an_unchanged_operation_keeps_minus_zeros_and_a_changed_one_does_not() {
    let mut given = row(&[1.0, 1.0, 1.0]);
    given.slots[0].minima = oracle::value::Reals::of(&[-0.0, 5.0]);
    on_both(|engine| {
        assert!(engine.is_sound(&given));
        let same = engine.apply(&given, &TileOp::Activate { pane: 1 });
        assert!(same_tree_bits(&same.tree, &given));
        let changed = engine.apply(&given, &split(3, Vertical, 9, After, 0.5));
        let minimum = changed.tree.slots[0].minima.at[0];
        assert_eq!(minimum.to_bits(), 0.0_f64.to_bits());
    });
}

#[test]
fn fractions_at_their_ends() {
    let tree = row(&[1.0, 1.0]);
    for fraction in [0.0, -0.0, 1.0, f64::NAN, f64::INFINITY, -0.25] {
        answers(&tree, split(1, Vertical, 9, After, fraction), 9);
        answers(&tree, move_pane(1, beside(2, Vertical, After, fraction)), 8);
    }
    for fraction in [f64::from_bits(1), 1.0 - f64::EPSILON / 2.0] {
        answers(&tree, split(1, Vertical, 9, After, fraction), 0);
        answers(&tree, move_pane(1, beside(2, Vertical, After, fraction)), 0);
    }
}

#[test]
fn removal_from_a_group_moves_the_active_index() {
    let active_after = |active: u64, closed: u64, expected: u64| {
        on_both(|engine| {
            let given = tree(&[Slot::tabs(&[10, 11, 12, 13], active, Top)]);
            let answer = engine.apply(&given, &TileOp::Close { pane: closed });
            assert_eq!(answer.tree.slots[0].active, expected);
        });
    };
    active_after(3, 13, 2);
    active_after(3, 10, 2);
    active_after(0, 10, 0);
    active_after(1, 11, 0);
    active_after(2, 11, 1);
    active_after(1, 12, 1);
}

/// Split pane meets 3 only at the insertion: always in a parent of 16 places.
#[test]
fn split_pane_is_too_wide_only_at_the_insertion() {
    let mut met = 0;
    for case in 0..20_000 {
        let mut rng = Case::Operations.rng(10, case);
        let tree = sound_tree(&mut rng);
        let op = operation(&mut rng, &tree);
        let TileOp::SplitPane { pane, axis, .. } = op else { continue };
        if number(&Original.apply(&tree, &op)) == 3 {
            let holder = tile_of(&tree, pane);
            let parent = tree
                .slots
                .iter()
                .find(|slot| slot.kind == Kind::Split(axis) && children(slot).contains(&holder));
            assert_eq!(parent.map(|slot| slot.children.len), Some(16), "case {case}");
            met += 1;
        }
    }
    assert!(met > 0);
}

fn tile_of(tree: &TileTree, pane: u64) -> u64 {
    let holds = |slot: &Slot| match slot.kind {
        Kind::Pane(other) => other == pane,
        Kind::Tabs(_) => slot.panes.entries().contains(&pane),
        _ => false,
    };
    tree.slots.iter().position(holds).expect("the pane is there") as u64
}
