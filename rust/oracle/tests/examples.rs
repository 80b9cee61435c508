//! Document 01's marked examples, E1 to E12, on the original and on the model.

mod common;

use common::*;
use oracle::engine::Engine;
use oracle::value::{DockTarget, Kind, LayoutInput, Reals, Rect, Slot, TileTree};

fn solves(total: f64, shares: &[f64], minima: &[f64], lengths: &[f64], passes: u64) {
    on_both(|engine| {
        let answer = engine.solve(total, &Reals::of(shares), &Reals::of(minima));
        assert_eq!(answer.refusal, None);
        assert_eq!(answer.lengths, lengths, "{}", engine.name());
        assert_eq!(answer.passes, passes, "{}", engine.name());
    });
}

#[test]
fn e1() {
    solves(100.0, &[1.0, 3.0], &[0.0, 0.0], &[25.0, 75.0], 0);
}

#[test]
fn e2() {
    solves(100.0, &[1.0, 3.0], &[40.0, 0.0], &[40.0, 60.0], 2);
}

#[test]
fn e3() {
    solves(100.0, &[1.0, 1.0, 2.0], &[40.0, 25.0, 0.0], &[40.0, 25.0, 35.0], 3);
}

#[test]
fn e4() {
    solves(50.0, &[1.0, 1.0], &[75.0, 25.0], &[37.5, 12.5], 0);
}

#[test]
fn e5() {
    solves(100.0, &[1.0, 1.0], &[75.0, 25.0], &[75.0, 25.0], 0);
}

#[test]
fn e6() {
    solves(0.0, &[1.0, 1.0], &[75.0, 25.0], &[0.0, 0.0], 0);
}

#[test]
fn e7() {
    on_both(|engine| {
        let answer = engine.apply(&row(&[1.0, 1.0]), &split(1, Horizontal, 3, Before, 0.25));
        assert_eq!(answer.refusal, None);
        assert_eq!(panes_in_order(&answer.tree), [3, 1, 2]);
        let root = answer.tree.slots[0];
        assert_eq!(reals(&root.shares), [0.25, 0.75, 1.0]);
        assert_eq!(children(&root), [3, 1, 2]);
        assert_eq!(answer.tree.revision, 1);
    });
}

#[test]
fn e8() {
    on_both(|engine| {
        let answer = engine.apply(&row(&[1.0, 1.0]), &split(1, Vertical, 3, After, 0.25));
        assert_eq!(answer.refusal, None);
        assert_eq!(panes_in_order(&answer.tree), [1, 3, 2]);
        assert_eq!(children(&answer.tree.slots[0]), [4, 2], "pane tile first, then split");
        let inner = answer.tree.slots[4];
        assert_eq!(inner.kind, Kind::Split(Vertical));
        assert_eq!(children(&inner), [1, 3]);
        assert_eq!(reals(&inner.shares), [0.75, 0.25]);
    });
}

#[test]
fn e9() {
    on_both(|engine| {
        let answer = engine.apply(&row(&[1.0, 1.0, 1.0]), &move_pane(3, DockTarget::Root));
        assert_eq!(answer.refusal, None);
        assert_eq!(panes_in_order(&answer.tree), [1, 2, 3]);
        let root = answer.tree.slots[answer.tree.root.slot as usize];
        assert_eq!(reals(&root.shares), [0.5, 0.5, 0.5]);
        assert_eq!(children(&root), [1, 2, 4]);
        assert_eq!(answer.tree.root, id(5), "slot 3, just emptied, is not taken");
        assert_eq!(answer.tree.slots[4].kind, Kind::Tabs(Top));
    });
}

#[test]
fn e10() {
    on_both(|engine| {
        let answer = engine.apply(&tree(&[Slot::pane(1)]), &move_pane(1, DockTarget::Root));
        assert_eq!(number(&answer), 6);
    });
}

#[test]
fn e11() {
    on_both(|engine| {
        let answer = engine.layout(&row(&[1.0, 1.0]), &input([0.0, 0.0, 100.0, 50.0], 4.0, 0.0));
        let panes: Vec<_> = answer.frame.panes.iter().map(|pane| corners(pane.rect)).collect();
        assert_eq!(panes, [[0.0, 0.0, 48.0, 50.0], [52.0, 0.0, 100.0, 50.0]]);
        let handles: Vec<_> =
            answer.frame.split_handles.iter().map(|handle| corners(handle.rect)).collect();
        assert_eq!(handles, [[48.0, 0.0, 52.0, 50.0]]);
    });
}

#[test]
fn e12() {
    on_both(|engine| {
        let group = tree(&[Slot::tabs(&[1, 2, 3], 0, Top)]);
        let answer = engine.layout(&group, &input([0.0, 0.0, 90.0, 40.0], 0.0, 10.0));
        let tabs: Vec<_> = answer.frame.tabs.iter().map(|tab| tab.rect.x1 - tab.rect.x0).collect();
        assert_eq!(tabs, [30.0, 30.0, 30.0]);
        assert_eq!(corners(answer.frame.panes[0].rect), [0.0, 10.0, 90.0, 40.0]);
    });
}

fn input(outer: [f64; 4], handle: f64, bar: f64) -> LayoutInput {
    let [x0, y0, x1, y1] = outer;
    LayoutInput { outer: Rect { x0, y0, x1, y1 }, handle, bar, min_width: 0.0, min_height: 0.0 }
}

fn corners(rect: Rect) -> [f64; 4] {
    [rect.x0, rect.y0, rect.x1, rect.y1]
}

fn panes_in_order(tree: &TileTree) -> Vec<u64> {
    oracle::model::Model.layout(tree, &input([0.0, 0.0, 1.0, 1.0], 0.0, 0.0)).frame.focus_order
}
