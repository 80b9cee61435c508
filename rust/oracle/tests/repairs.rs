//! What the readings of document 01 say of repair and soundness.

mod common;

use common::*;
use oracle::check::Kind as Case;
use oracle::engine::Engine;
use oracle::generate::hostile::arena;
use oracle::model::Model;
use oracle::value::{Action, Reals, Slot, TileTree, Tiles, same_tree};

fn repairs(tree: &TileTree, expected: &[Action]) {
    on_both(|engine| {
        let answer = engine.repair(tree);
        assert_eq!(answer.refusal, None, "{}", engine.name());
        assert_eq!(answer.actions, expected, "{}", engine.name());
    });
}

fn refuses(tree: &TileTree, expected: u64) {
    on_both(|engine| {
        let answer = engine.repair(tree);
        assert_eq!(answer.refusal.map(|it| it.number), Some(expected), "{}", engine.name());
        assert!(answer.actions.is_empty() && !engine.is_sound(tree));
    });
}

#[test]
fn the_lone_empty_root_is_sound_but_no_fixed_point() {
    let lone = TileTree::lone_empty_root();
    repairs(&lone, &[Action::RemovedInvalidNode(id(0))]);
    on_both(|engine| {
        assert!(engine.is_sound(&lone));
        let repaired = engine.repair(&lone).tree;
        assert_eq!(repaired.root, id(1));
        assert!(engine.is_sound(&repaired));
    });
}

#[test]
fn no_action_exactly_when_nothing_changes() {
    for case in 0..20_000 {
        let tree = arena(&mut Case::Repair.rng(77, case));
        let answer = Model.repair(&tree);
        if answer.refusal.is_none() {
            assert_eq!(answer.actions.is_empty(), same_tree(&answer.tree, &tree), "case {case}");
        }
    }
}

#[test]
fn an_accepted_repair_leaves_a_sound_tree() {
    on_both(|engine| {
        for case in 0..20_000 {
            let tree = arena(&mut Case::Repair.rng(78, case));
            let answer = engine.repair(&tree);
            assert_eq!(answer.refusal.is_none(), engine.is_sound(&answer.tree), "case {case}");
            assert!(answer.actions.len() <= 1300);
            assert_eq!(answer.tree.revision, tree.revision);
        }
    });
}

/// A chain of 63 splits with 15 distinct bad ids, bad shares and bad minima
/// each, then a group of eight pairs with a bad active index.
#[test]
fn the_longest_list_of_actions_made_by_hand() {
    let mut slots = Vec::new();
    for at in 0..63_u64 {
        let mut children = [at + 1; 16];
        for (place, child) in children.iter_mut().enumerate().skip(1) {
            *child = 100 + at * 16 + place as u64;
        }
        slots.push(Slot::split(Horizontal, &children, &[f64::NAN], &[-1.0]));
    }
    let pairs: Vec<u64> = (0..16).map(|at| at / 2).collect();
    slots.push(Slot::tabs(&pairs, 99, Top));
    on_both(|engine| {
        let answer = engine.repair(&tree(&slots));
        assert_eq!(answer.refusal, None);
        assert_eq!(answer.actions.len(), 1143);
    });
}

#[test]
fn a_ring_of_splits_is_cut() {
    let ring = tree(&[
        Slot::split(Horizontal, &[1, 2], &[1.0, 1.0], &[]),
        Slot::split(Vertical, &[0, 3], &[1.0, 1.0], &[]),
        Slot::pane(2),
        Slot::pane(3),
    ]);
    repairs(&ring, &[Action::RemovedInvalidNode(id(0)), Action::CollapsedSplit(id(1))]);
    on_both(|engine| assert!(!engine.is_sound(&ring)));
}

#[test]
fn a_second_reference_names_a_tile_that_stays_and_is_listed_once() {
    let shared = tree(&[
        Slot::split(Horizontal, &[1, 2, 1, 1, 900, u64::MAX], &[1.0; 6], &[]),
        Slot::pane(1),
        Slot::pane(2),
    ]);
    repairs(
        &shared,
        &[
            Action::RemovedInvalidNode(id(1)),
            Action::RemovedInvalidNode(id(900)),
            Action::RemovedInvalidNode(id(u64::MAX)),
            Action::RepairedShares(id(0)),
        ],
    );
}

#[test]
fn shares_are_listed_whenever_the_structure_changed_and_minima_are_not() {
    let mut given = row(&[1.0, 2.0, 3.0]);
    given.slots[0].minima = Reals::of(&[4.0, 5.0, 6.0]);
    given.slots[2] = Slot::EMPTY;
    repairs(&given, &[Action::RemovedInvalidNode(id(2)), Action::RepairedShares(id(0))]);
    on_both(|engine| {
        let root = engine.repair(&given).tree.slots[0];
        assert_eq!(reals(&root.shares), [1.0, 3.0]);
        assert_eq!(reals(&root.minima), [4.0, 6.0]);
    });
}

#[test]
fn bad_lists_of_a_split_that_goes_are_listed_all_the_same() {
    let mut given = row(&[f64::NAN, 1.0]);
    given.slots[0].minima = Reals::of(&[-1.0]);
    given.slots[2] = Slot::EMPTY;
    repairs(
        &given,
        &[
            Action::RepairedConstraints(id(0)),
            Action::RepairedShares(id(0)),
            Action::RemovedInvalidNode(id(2)),
            Action::CollapsedSplit(id(0)),
        ],
    );
}

#[test]
fn minus_zero_as_a_minimum() {
    let with = |minima: &[f64]| {
        let mut given = row(&[1.0, 1.0, 1.0]);
        given.slots[0].minima = Reals::of(minima);
        given
    };
    repairs(&with(&[-0.0, 5.0]), &[]);
    on_both(|engine| {
        let minima = engine.repair(&with(&[-0.0, 5.0])).tree.slots[0].minima;
        assert_eq!(minima.len, 2);
        assert_eq!(minima.at[0].to_bits(), 0.0_f64.to_bits());
    });
    repairs(&with(&[5.0, 0.0]), &[Action::RepairedConstraints(id(0))]);
    repairs(&with(&[5.0, -0.0]), &[Action::RepairedConstraints(id(0))]);
}

/// A horizontal split of pane 2 and a horizontal split of panes 3 and 4.
fn nested(outer: &[f64], inner: &[f64], minima: &[f64]) -> TileTree {
    tree(&[
        Slot::split(Horizontal, &[1, 2], outer, minima),
        Slot::split(Horizontal, &[3, 4], inner, &[]),
        Slot::pane(2),
        Slot::pane(3),
        Slot::pane(4),
    ])
}

#[test]
fn a_place_melts_when_its_minimum_is_a_zero_of_either_sign() {
    for (minima, melts) in [(vec![], true), (vec![-0.0, 1.0], true), (vec![1.0], false)] {
        on_both(|engine| {
            let given = nested(&[2.0, 1.0], &[3.0, 5.0], &minima);
            let answer = engine.repair(&given);
            assert_eq!(answer.actions.contains(&Action::CollapsedSplit(id(1))), melts);
            let shares = reals(&answer.tree.slots[0].shares);
            assert_eq!(shares, if melts { vec![6.0, 10.0, 1.0] } else { vec![2.0, 1.0] });
        });
    }
}

#[test]
fn products_that_overflow_or_vanish_become_one() {
    on_both(|engine| {
        let huge = engine.repair(&nested(&[1e200, 1.0], &[1e200, 2.0], &[])).tree;
        assert_eq!(reals(&huge.slots[0].shares), [1.0, 2e200, 1.0]);
        let tiny = engine.repair(&nested(&[1e-200, 1.0], &[1e-200, 2.0], &[])).tree;
        assert_eq!(reals(&tiny.slots[0].shares), [1.0, 2e-200, 1.0]);
    });
}

#[test]
fn melting_multiplies_inner_first_and_mends_each_level() {
    let three = tree(&[
        Slot::split(Horizontal, &[1, 3], &[1e-200, 1.0], &[]),
        Slot::split(Horizontal, &[2, 4], &[1e200, 1.0], &[]),
        Slot::split(Horizontal, &[5, 6], &[1e200, 1.0], &[]),
        Slot::pane(3),
        Slot::pane(4),
        Slot::pane(5),
        Slot::pane(6),
    ]);
    on_both(|engine| {
        // 1e200 × 1e200 overflows to 1.0 in the middle, then × 1e-200.
        let shares = reals(&engine.repair(&three).tree.slots[0].shares);
        assert_eq!(shares, [1e-200, 1e-200 * 1e200, 1e-200, 1.0]);
    });
}

#[test]
fn a_collapsed_split_leaves_the_outer_places_share_and_minimum() {
    let given = tree(&[
        Slot::split(Horizontal, &[1, 2], &[7.0, 1.0], &[9.0]),
        Slot::split(Vertical, &[3, 40], &[5.0, 1.0], &[]),
        Slot::pane(2),
        Slot::pane(3),
    ]);
    on_both(|engine| {
        let root = engine.repair(&given).tree.slots[0];
        assert_eq!(children(&root), [3, 2]);
        assert_eq!(reals(&root.shares), [7.0, 1.0]);
        assert_eq!(reals(&root.minima), [9.0]);
    });
}

#[test]
fn a_list_over_sixteen_is_refused_reached_or_not() {
    let mut given = row(&[1.0, 1.0]);
    given.slots[40] = Slot::tabs(&[7], 0, Top);
    given.slots[40].panes.len = 17;
    refuses(&given, 3);
    let mut minima = row(&[1.0, 1.0]);
    minima.slots[0].minima.len = u64::MAX;
    refuses(&minima, 3);
    let mut unused = row(&[1.0, 1.0]);
    unused.slots[1].children.len = 17;
    repairs(&unused, &[]);
}

#[test]
fn a_list_over_sixteen_made_by_melting_is_refused() {
    let melting = |outer: u64| {
        let children: Vec<u64> = (1..=outer + 1).collect();
        let mut slots = vec![Slot::split(Vertical, &children, &vec![1.0; children.len()], &[])];
        slots.extend((1..=outer).map(Slot::pane));
        let at = outer + 2;
        slots.push(Slot::split(Vertical, &[at, at + 1], &[1.0, 1.0], &[]));
        slots.extend([101, 102].map(Slot::pane));
        tree(&slots)
    };
    refuses(&melting(15), 3);
    on_both(|engine| assert_eq!(engine.repair(&melting(14)).refusal, None));
}

#[test]
fn nothing_kept_and_no_slot_empty_is_a_full_arena() {
    let mut full = tree(&[Slot::tabs(&[], 0, Top); 64]);
    refuses(&full, 2);
    full.slots[13] = Slot::EMPTY;
    on_both(|engine| {
        let answer = engine.repair(&full);
        assert_eq!((answer.refusal, answer.tree.root), (None, id(13)));
        assert_eq!(answer.actions.len(), 63);
    });
}

#[test]
fn an_arena_may_hold_tiles_in_any_slot() {
    let mut given = TileTree::blank();
    given.root = id(63);
    given.slots[63] = Slot::split(Horizontal, &[0, 31], &[1.0, 1.0], &[]);
    given.slots[0] = Slot::pane(u64::MAX);
    given.slots[31] = Slot::tabs(&[0, 1 << 63], 1, Left);
    given.slots[63].children.at[2..].copy_from_slice(&Tiles::EMPTY.at[2..]);
    repairs(&given, &[]);
}
