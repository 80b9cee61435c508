//! Document 01's marked examples and the readings that a host meets first.

use tiling::{
    Axis, DockTarget, LayoutInput, PaneId, Placement, Rect, Revision, Size, TabBarPlacement,
    TileError, TileId, TileNode, TileOp, TileSpec, TileTree, solve,
};

fn row(shares: &[f64]) -> TileTree {
    let panes = (1..=shares.len() as u64).map(|pane| TileSpec::pane(PaneId(pane)));
    TileTree::from_spec(TileSpec::split(Axis::Horizontal, panes, shares.iter().copied())).unwrap()
}

fn panes(tree: &TileTree) -> Vec<u64> {
    tree.panes().map(|pane| pane.0).collect()
}

fn shares(tree: &TileTree) -> Vec<f64> {
    match tree.node(tree.root()) {
        Some(TileNode::Split(split)) => split.shares,
        other => panic!("the root is {other:?}"),
    }
}

fn input(x1: f64, y1: f64, bar: f64, handle: f64) -> LayoutInput {
    LayoutInput {
        bounds: Rect::new(0.0, 0.0, x1, y1),
        tab_bar_thickness: bar,
        split_handle_thickness: handle,
        min_pane_size: Size::default(),
    }
}

fn split_one(axis: Axis, placement: Placement) -> TileOp {
    let (pane, new_pane) = (PaneId(1), PaneId(3));
    TileOp::SplitPane { pane, axis, new_pane, placement, share: 0.25 }
}

/// Total, shares and minima; lengths and passes.
type Solved<'a> = (f64, &'a [f64], &'a [f64], &'a [f64], u64);

#[test]
fn e1_to_e6() {
    let cases: [Solved<'_>; 6] = [
        (100.0, &[1.0, 3.0], &[0.0, 0.0], &[25.0, 75.0], 0),
        (100.0, &[1.0, 3.0], &[40.0, 0.0], &[40.0, 60.0], 2),
        (100.0, &[1.0, 1.0, 2.0], &[40.0, 25.0, 0.0], &[40.0, 25.0, 35.0], 3),
        (50.0, &[1.0, 1.0], &[75.0, 25.0], &[37.5, 12.5], 0),
        (100.0, &[1.0, 1.0], &[75.0, 25.0], &[75.0, 25.0], 0),
        (0.0, &[1.0, 1.0], &[75.0, 25.0], &[0.0, 0.0], 0),
    ];
    for (total, shares, minima, lengths, passes) in cases {
        let solution = solve(total, shares, minima).unwrap();
        assert_eq!((solution.lengths(), solution.passes()), (lengths, passes));
    }
}

#[test]
fn solve_refuses_what_is_out_of_range() {
    let bad: [(f64, &[f64], &[f64]); 5] = [
        (f64::NAN, &[1.0], &[0.0]),
        (-1.0, &[1.0], &[0.0]),
        (1.0, &[0.0], &[0.0]),
        (1.0, &[1.0], &[]),
        (1.0, &[1.0; 17], &[0.0; 17]),
    ];
    for (total, shares, minima) in bad {
        assert_eq!(solve(total, shares, minima), Err(TileError::BadInput));
    }
    assert_eq!(solve(1.0, &[], &[]).unwrap().lengths(), &[] as &[f64]);
}

#[test]
fn e7_and_e8() {
    let mut tree = row(&[1.0, 1.0]);
    tree.apply(split_one(Axis::Horizontal, Placement::Before)).unwrap();
    assert_eq!(panes(&tree), [3, 1, 2]);
    assert_eq!(shares(&tree), [0.25, 0.75, 1.0]);
    assert_eq!(tree.revision(), Revision(1));

    let mut tree = row(&[1.0, 1.0]);
    tree.apply(split_one(Axis::Vertical, Placement::After)).unwrap();
    assert_eq!(panes(&tree), [1, 3, 2]);
    let Some(TileNode::Split(root)) = tree.node(tree.root()) else { panic!("no split") };
    let Some(TileNode::Split(inner)) = tree.node(root.children[0]) else { panic!("no split") };
    assert_eq!((inner.axis, inner.shares), (Axis::Vertical, vec![0.75, 0.25]));
    assert_eq!(inner.constraints.min_major, []);
}

#[test]
fn e9_and_e10() {
    let mut tree = row(&[1.0; 3]);
    tree.apply(TileOp::MovePane { pane: PaneId(3), target: DockTarget::Root }).unwrap();
    assert_eq!(panes(&tree), [1, 2, 3]);
    assert_eq!(shares(&tree), [0.5; 3]);

    let mut tree = TileTree::single_pane(PaneId(9));
    let before = tree.clone();
    let op = TileOp::MovePane { pane: PaneId(9), target: DockTarget::Root };
    assert_eq!(tree.apply(op), Err(TileError::InvalidTileId));
    assert!(tree.arena().same_bits(before.arena()));
}

#[test]
fn e11_and_e12() {
    let frame = row(&[1.0, 1.0]).layout(input(100.0, 50.0, 0.0, 4.0)).unwrap();
    let rects: Vec<Rect> = frame.panes().iter().map(|pane| pane.rect).collect();
    assert_eq!(rects, [Rect::new(0.0, 0.0, 48.0, 50.0), Rect::new(52.0, 0.0, 100.0, 50.0)]);
    assert_eq!(frame.split_handles()[0].rect, Rect::new(48.0, 0.0, 52.0, 50.0));

    let group = TileSpec::tabs([PaneId(1), PaneId(2), PaneId(3)]);
    let frame = TileTree::from_spec(group).unwrap().layout(input(90.0, 40.0, 10.0, 0.0)).unwrap();
    assert!(frame.tabs().iter().all(|tab| tab.rect.width() == 30.0));
    assert_eq!(frame.panes()[0].rect, Rect::new(0.0, 10.0, 90.0, 40.0));
    assert_eq!(frame.tab_bars()[0].active_pane, Some(PaneId(1)));
    assert_eq!(frame.focus_order().len(), 3);
    assert_eq!(frame.paint_order().len(), 5);
}

#[test]
fn layout_refuses_what_is_out_of_range() {
    let tree = row(&[1.0, 1.0]);
    assert_eq!(tree.layout(input(f64::NAN, 1.0, 0.0, 0.0)), Err(TileError::BadInput));
    assert_eq!(tree.layout(input(1048577.0, 1.0, 0.0, 0.0)), Err(TileError::BadInput));
    assert_eq!(tree.layout(input(1.0, 1.0, -1.0, 0.0)), Err(TileError::BadInput));
    assert!(tree.layout(input(1048576.0, 1.0, 0.0, 0.0)).is_ok());
}

#[test]
fn tabs_are_activated_reordered_and_closed() {
    let group = TileSpec::tabs_with([1, 2, 3].map(PaneId), 2, TabBarPlacement::Left);
    let mut tree = TileTree::from_spec(group).unwrap();
    let root = tree.root();
    tree.apply(TileOp::ReorderTab { group: root, pane: PaneId(3), index: 0 }).unwrap();
    tree.apply(TileOp::ActivatePane { pane: PaneId(2) }).unwrap();
    tree.apply(TileOp::ClosePane { pane: PaneId(1) }).unwrap();
    let Some(TileNode::Tabs(tabs)) = tree.node(root) else { panic!("no group") };
    assert_eq!(tabs.panes, [PaneId(3), PaneId(2)]);
    assert_eq!((tabs.active, tabs.placement), (1, TabBarPlacement::Left));
    assert_eq!(tree.revision(), Revision(3));
    tree.apply(TileOp::ActivatePane { pane: PaneId(2) }).unwrap();
    assert_eq!(tree.revision(), Revision(3), "shown already");
}

#[test]
fn a_pane_is_moved_into_a_group_and_beside_a_tile() {
    let spec = TileSpec::equal_split(
        Axis::Horizontal,
        [TileSpec::tabs([PaneId(1), PaneId(2)]), TileSpec::pane(PaneId(3))],
    );
    let mut tree = TileTree::from_spec(spec).unwrap();
    let target = DockTarget::TabInto { group: TileId(1), index: Some(1) };
    tree.apply(TileOp::MovePane { pane: PaneId(3), target }).unwrap();
    assert_eq!(panes(&tree), [1, 3, 2]);
    let (axis, placement) = (Axis::Vertical, Placement::Before);
    let target = DockTarget::Split { tile: tree.root(), axis, placement, ratio: 0.5 };
    tree.apply(TileOp::MovePane { pane: PaneId(2), target }).unwrap();
    assert_eq!(panes(&tree), [2, 1, 3]);
}

#[test]
fn closing_the_last_pane_leaves_an_empty_group() {
    let mut tree = TileTree::single_pane(PaneId(1));
    tree.apply(TileOp::ClosePane { pane: PaneId(1) }).unwrap();
    assert!(tree.is_sound());
    assert_eq!(panes(&tree), []);
    assert!(tree.layout(input(1.0, 1.0, 0.0, 0.0)).unwrap().panes().is_empty());
}
