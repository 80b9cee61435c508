//! The original in an arena of its own over hundreds of operations, beside the
//! model, which takes emptied slots again: equal up to tile ids all the way.
#![cfg(original)]

mod common;

use common::*;
use oracle::check::{Kind as Case, shown};
use oracle::engine::Engine;
use oracle::generate::operations::operation;
use oracle::generate::trees::sound_tree;
use oracle::model::Model;
use oracle::original::History;
use oracle::value::{Kind, TileTree};

const RUNS: u64 = 400;
const OPERATIONS: u64 = 300;

fn is_empty(tree: &TileTree) -> bool {
    tree.slots
        .iter()
        .all(|slot| !matches!(slot.kind, Kind::Pane(_)) && slot.panes.entries().is_empty())
}

#[test]
fn long_runs_in_the_originals_own_arena() {
    let (mut compared, mut largest) = (0_u64, 0);
    for case in 0..RUNS {
        let mut rng = Case::Operations.rng(9, case);
        let mut tree = Model.repair(&sound_tree(&mut rng)).tree;
        tree.revision = 0;
        let mut history = History::new(&tree);
        assert!(history.is_like(&tree));
        for _ in 0..OPERATIONS {
            let op = operation(&mut rng, &tree);
            let answer = Model.apply(&tree, &op);
            // Document 01's own refusals (2, 3), and its close of the last
            // pane, are not the original's: the run passes over them.
            if matches!(number(&answer), 2 | 3) || is_empty(&answer.tree) {
                continue;
            }
            assert_eq!(history.apply(&op), answer.refusal.is_none(), "{op:?}\n{}", shown(&tree));
            assert!(history.is_like(&answer.tree), "{op:?}\n{}", shown(&tree));
            tree = answer.tree;
            compared += 1;
        }
        largest = largest.max(history.slots());
    }
    println!("{compared} operations compared, the largest arena had {largest} slots");
    assert!(compared > RUNS * OPERATIONS / 2 && largest > 300);
}
