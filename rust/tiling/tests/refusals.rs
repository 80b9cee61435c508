//! Every refusal of document 01, by its number and details.

use tiling::arena::{head, kind};
use tiling::{
    Arena, Axis, DockTarget, FrameBuffer, LayoutInput, PaneId, Placement, Rect, RepairAction, Size,
    SplitConstraints, TileError, TileId, TileOp, TileSpec, TileTree,
};

fn pane(pane: u64) -> TileSpec {
    TileSpec::pane(PaneId(pane))
}

fn panes(count: u64) -> impl Iterator<Item = TileSpec> {
    (1..=count).map(pane)
}

fn refused(spec: TileSpec) -> (u64, [u64; 2]) {
    let error = TileTree::from_spec(spec).expect_err("a spec to be refused");
    (error.number(), error.details())
}

fn with_minima(minima: &[f64]) -> TileSpec {
    TileSpec::Split {
        axis: Axis::Vertical,
        children: panes(2).collect(),
        shares: vec![1.0, 1.0],
        constraints: SplitConstraints { min_major: minima.to_vec() },
    }
}

#[test]
fn specs() {
    let across = Axis::Horizontal;
    let nested = (1..=5).map(|at| {
        TileSpec::equal_split(Axis::Vertical, (0..13).map(move |more| pane(at * 100 + more)))
    });
    assert_eq!(refused(TileSpec::equal_split(across, nested)), (2, [0, 0]));
    assert_eq!(refused(TileSpec::equal_split(across, panes(17))), (3, [0, 0]));
    assert_eq!(refused(TileSpec::tabs((0..70_000).map(PaneId))), (3, [0, 0]));
    assert_eq!(refused(TileSpec::equal_split(across, [pane(7), pane(7)])), (10, [7, 0]));
    assert_eq!(refused(TileSpec::tabs([])), (12, [0, 0]));
    assert_eq!(refused(TileSpec::equal_split(across, [pane(1)])), (13, [1, 0]));
    assert_eq!(refused(TileSpec::split(across, panes(2), [1.0])), (14, [2, 1]));
    assert_eq!(refused(TileSpec::split(across, panes(2), vec![1.0; 70_000])), (14, [2, 65_535]));
    assert_eq!(refused(TileSpec::split(across, panes(2), [1.0, f64::NAN])), (15, [1, 0]));
    assert_eq!(refused(with_minima(&[1.0; 3])), (16, [2, 3]));
    assert_eq!(refused(with_minima(&[0.0, -1.0])), (17, [1, 0]));
    let tabs = |active| TileSpec::tabs_with([PaneId(1)], active, tiling::TabBarPlacement::Top);
    assert_eq!(refused(tabs(1)), (18, [1, 1]));
    assert_eq!(refused(tabs(usize::MAX)), (18, [65_535, 1]));
}

#[test]
fn tables() {
    assert_eq!(TileTree::from_table(&[]).unwrap_err(), TileError::BadTable);
    let mut table = pane(1).table();
    assert!(TileTree::from_table(&table).is_ok());
    table.push(0);
    assert_eq!(TileTree::from_table(&table).unwrap_err(), TileError::BadTable);
}

#[test]
fn deep_specs_are_written_without_deep_calls() {
    let mut spec = pane(0);
    for at in 1..=100_000 {
        spec = TileSpec::equal_split(Axis::Horizontal, [spec, pane(at)]);
    }
    assert_eq!(spec.table().len(), 16 + 8 * (200_001 + 100_001 + 200_000));
    // Dropping it goes as deep as it is nested; that is Rust's own.
    std::mem::forget(spec);
}

fn op_refused(tree: &mut TileTree, op: TileOp) -> (u64, [u64; 2]) {
    let before = tree.clone();
    let error = tree.apply(op).expect_err("a change to be refused");
    assert!(tree.arena().same_bits(before.arena()), "a refused change leaves the tree");
    (error.number(), error.details())
}

fn split(pane: u64, new_pane: u64, share: f64) -> TileOp {
    let (axis, placement) = (Axis::Horizontal, Placement::After);
    TileOp::SplitPane { pane: PaneId(pane), axis, new_pane: PaneId(new_pane), placement, share }
}

#[test]
fn changes() {
    let mut tree = TileTree::from_spec(TileSpec::equal_split(Axis::Horizontal, panes(16))).unwrap();
    let moved = |target| TileOp::MovePane { pane: PaneId(1), target };
    let beside = |tile, ratio| DockTarget::Split {
        tile: TileId(tile),
        axis: Axis::Vertical,
        placement: Placement::After,
        ratio,
    };
    assert_eq!(op_refused(&mut tree, split(1, 99, 0.5)), (3, [0, 0]));
    assert_eq!(op_refused(&mut tree, split(1, 99, 1.0)), (9, [0, 0]));
    assert_eq!(op_refused(&mut tree, split(1, 2, 0.5)), (10, [2, 0]));
    assert_eq!(op_refused(&mut tree, split(77, 99, 0.5)), (7, [0, 0]));
    assert_eq!(op_refused(&mut tree, TileOp::ClosePane { pane: PaneId(77) }), (7, [0, 0]));
    assert_eq!(op_refused(&mut tree, moved(beside(u64::MAX, 0.5))), (6, [0, 0]));
    assert_eq!(op_refused(&mut tree, moved(beside(2, 0.0))), (8, [0, 0]));
    let into = DockTarget::TabInto { group: TileId(2), index: None };
    assert_eq!(op_refused(&mut tree, moved(into)), (8, [0, 0]));
    let mut last = Box::new(tree.arena().clone());
    last.top[1] = u64::MAX;
    let mut last = TileTree::from_arena(last);
    assert_eq!(op_refused(&mut last, TileOp::ClosePane { pane: PaneId(1) }), (11, [0, 0]));
}

#[test]
fn no_slot_is_left() {
    // Three columns of 15 panes, and the root: 49 tiles.
    let column = |at: u64| {
        TileSpec::equal_split(Axis::Vertical, (0..15).map(move |more| pane(at * 100 + more)))
    };
    let columns = TileSpec::split(Axis::Horizontal, (0..3).map(column), [1.0; 3]);
    let mut tree = TileTree::from_spec(columns).unwrap();
    let mut next = 1000;
    // Each change makes a pane and a split. After seven one slot is left.
    for at in 0..7 {
        tree.apply(split(at, next, 0.5)).unwrap();
        next += 1;
    }
    assert_eq!(op_refused(&mut tree, split(100, next, 0.5)), (2, [0, 0]));
}

#[test]
fn unsound_arenas() {
    let mut arena = Arena::boxed();
    arena.heads[0][head::KIND] = kind::SPLIT;
    arena.heads[0][head::IDS] = 2;
    arena.ids[0][..2].copy_from_slice(&[1, 99]);
    arena.heads[1][head::KIND] = kind::PANE;
    let mut tree = TileTree::from_arena(arena);
    assert!(!tree.is_sound());
    assert_eq!(op_refused(&mut tree, TileOp::ClosePane { pane: PaneId(0) }), (4, [0, 0]));
    let mut buffer = FrameBuffer::new();
    assert_eq!(tree.layout_into(input(), &mut buffer), Err(TileError::NotSound));
    assert!(buffer.is_empty());
    let actions = tree.repair().unwrap();
    assert_eq!(
        actions,
        [
            RepairAction::RepairedShares(TileId(0)),
            RepairAction::RemovedInvalidNode(TileId(99)),
            RepairAction::CollapsedSplit(TileId(0)),
        ]
    );
    assert!(tree.is_sound());
    assert_eq!(tree.root(), TileId(1));
    tree.layout_into(input(), &mut buffer).unwrap();
    assert_eq!(buffer.to_frame(), tree.layout(input()).unwrap());
    assert_eq!(buffer.panes().count(), 1);
}

#[test]
fn codes_that_are_none() {
    for (slot, head) in [(0, [4, 0]), (63, [2, 5]), (7, [3, 2]), (8, [u64::MAX, 0])] {
        let mut arena = Box::new(TileTree::single_pane(PaneId(1)).arena().clone());
        arena.heads[slot][..2].copy_from_slice(&head);
        let mut tree = TileTree::from_arena(arena);
        let before = tree.clone();
        assert_eq!(tree.repair(), Err(TileError::BadInput));
        assert_eq!(op_refused(&mut tree, TileOp::ClosePane { pane: PaneId(1) }), (5, [0, 0]));
        assert_eq!(tree.layout(input()), Err(TileError::BadInput));
        assert!(!tree.is_sound());
        assert!(tree.arena().same_bits(before.arena()));
    }
}

fn input() -> LayoutInput {
    LayoutInput {
        bounds: Rect::new(0.0, 0.0, 100.0, 100.0),
        tab_bar_thickness: 10.0,
        split_handle_thickness: 2.0,
        min_pane_size: Size::new(5.0, 5.0),
    }
}

#[test]
fn panes_end_in_a_ring() {
    let mut arena = Arena::boxed();
    for at in 0..3 {
        arena.heads[at][head::KIND] = kind::SPLIT;
        arena.heads[at][head::IDS] = u64::MAX;
        arena.ids[at] = [(at as u64 + 1) % 3; 16];
    }
    arena.ids[2][5] = 9;
    arena.heads[9][head::KIND] = kind::PANE;
    arena.heads[9][head::PANE] = 42;
    let tree = TileTree::from_arena(arena);
    assert_eq!(tree.panes().collect::<Vec<_>>(), [PaneId(42)]);
}

#[test]
fn errors_are_numbered_and_say_what_is_wrong() {
    for number in 1..=18 {
        let error = TileError::of_number(number, [3, 4]).unwrap();
        assert_eq!(error.number(), number);
        assert_eq!(TileError::of_number(number, error.details()), Some(error));
        assert!(!error.to_string().is_empty());
    }
    assert_eq!(TileError::of_number(0, [0, 0]), None);
    assert_eq!(TileError::of_number(19, [0, 0]), None);
}
