//! Every call on the deepest inputs, in threads with small stacks.
//!
//! `cargo test --release -p tiling --test stack -- --nocapture` prints how much
//! stack each call wants.

use std::process::{Command, Stdio};
use std::thread;

use tiling::arena::{SLOTS, head, kind};
use tiling::{
    Arena, Axis, DockTarget, FrameBuffer, LayoutInput, PaneId, Placement, Rect, Size, TileId,
    TileOp, TileSpec, TileTree, solve,
};

type Call = Box<dyn FnOnce() + Send>;

/// As deep as 64 slots allow.
const DEEPEST: usize = 31;

/// Splits nested so deep, each in its parent's last place, and a group in the
/// last.
fn deep_spec(depth: usize, axes: [Axis; 2]) -> TileSpec {
    let mut spec = TileSpec::tabs((100..115).map(PaneId));
    for at in 0..depth {
        let axis = axes[at % 2];
        spec = TileSpec::equal_split(axis, [TileSpec::pane(PaneId(at as u64)), spec]);
    }
    spec
}

const CROSSED: [Axis; 2] = [Axis::Horizontal, Axis::Vertical];

fn deep_tree(depth: usize) -> TileTree {
    TileTree::from_spec(deep_spec(depth, CROSSED)).expect("at most 63 tiles")
}

/// A split in every slot but the last `rest`; `children` says which ids it has.
fn splits(rest: usize, children: impl Fn(u64) -> Vec<u64>) -> Box<Arena> {
    let mut arena = Arena::boxed();
    for at in 0..SLOTS - rest {
        let ids = children(at as u64);
        arena.heads[at][head::KIND] = kind::SPLIT;
        arena.heads[at][head::MODE] = at as u64 % 2;
        arena.heads[at][head::IDS] = ids.len() as u64;
        arena.heads[at][head::MINIMA] = 16;
        arena.ids[at][..ids.len()].copy_from_slice(&ids);
        arena.minima[at] = [-1.0; 16];
    }
    for at in SLOTS - rest..SLOTS {
        arena.heads[at][head::KIND] = kind::PANE;
        arena.heads[at][head::PANE] = at as u64;
    }
    arena
}

fn hostile() -> Vec<(&'static str, Box<Arena>)> {
    let bad = |at: u64, count: u64| (0..count).map(move |more| 1000 + 16 * at + more);
    vec![
        ("64 slots bad", splits(0, |at| bad(at, 16).collect())),
        ("a ring of 64", splits(0, |at| vec![(at + 1) % 64, (at + 63) % 64])),
        ("63 splits of 15 bad ids", splits(1, |at| bad(at, 15).chain([at + 1]).collect())),
        ("31 nested splits", splits(32, |at| vec![63 - at, (at + 1) % 32])),
    ]
}

fn input() -> LayoutInput {
    LayoutInput {
        bounds: Rect::new(0.0, 0.0, 1e6, 1e6),
        tab_bar_thickness: 10.0,
        split_handle_thickness: 2.0,
        min_pane_size: Size::new(5.0, 5.0),
    }
}

/// Changes of the innermost pane and the group beside it. One depth less than
/// the deepest leaves room for the tiles that each needs.
fn operations(depth: usize) -> [(&'static str, TileOp); 7] {
    let (pane, axis, placement) = (PaneId(0), Axis::Horizontal, Placement::After);
    let (group, tab) = (TileId(2 * depth as u64), PaneId(110));
    let beside = DockTarget::Split { tile: TileId(0), axis, placement, ratio: 0.5 };
    let into = DockTarget::TabInto { group, index: None };
    let new_pane = PaneId(999);
    [
        ("activate", TileOp::ActivatePane { pane: tab }),
        ("close", TileOp::ClosePane { pane }),
        ("split pane", TileOp::SplitPane { pane, axis, new_pane, placement, share: 0.5 }),
        ("move to root", TileOp::MovePane { pane, target: DockTarget::Root }),
        ("move beside", TileOp::MovePane { pane, target: beside }),
        ("move into", TileOp::MovePane { pane, target: into }),
        ("reorder", TileOp::ReorderTab { group, pane: tab, index: 0 }),
    ]
}

/// Every call, with its input made ready outside the thread.
fn calls() -> Vec<(String, Call)> {
    let mut calls: Vec<(String, Call)> = Vec::new();
    let mut add = |name: String, call: Call| calls.push((name, call));
    for (name, axes) in [("crossed", CROSSED), ("melting", [Axis::Vertical; 2])] {
        let table = deep_spec(DEEPEST, axes).table();
        add(format!("from_table, {name}"), Box::new(move || drop(TileTree::from_table(&table))));
    }
    for (name, arena) in hostile() {
        let mut tree = TileTree::from_arena(arena.clone());
        add(format!("repair, {name}"), Box::new(move || drop(tree.repair())));
        let tree = TileTree::from_arena(arena);
        add(format!("is_sound, {name}"), Box::new(move || _ = tree.is_sound()));
    }
    let tree = deep_tree(DEEPEST);
    add("is_sound, sound".to_string(), Box::new(move || assert!(tree.is_sound())));
    for (name, op) in operations(DEEPEST) {
        let mut tree = deep_tree(DEEPEST);
        add(format!("apply, {name}, deepest"), Box::new(move || _ = tree.apply(op)));
    }
    for (name, op) in operations(DEEPEST - 1) {
        let mut tree = deep_tree(DEEPEST - 1);
        add(format!("apply, {name}"), Box::new(move || tree.apply(op).unwrap()));
    }
    let tree = deep_tree(DEEPEST);
    add("layout".to_string(), Box::new(move || drop(tree.layout(input()).unwrap())));
    let (tree, mut buffer) = (deep_tree(DEEPEST), FrameBuffer::new());
    let into = move || tree.layout_into(input(), &mut buffer).unwrap();
    add("layout_into".to_string(), Box::new(into));
    add("solve".to_string(), Box::new(|| _ = solve(1e6, &[1.0; 16], &[1e4; 16]).unwrap()));
    calls
}

fn on_a_stack(bytes: usize, call: Call) {
    let thread = thread::Builder::new().stack_size(bytes).spawn(call);
    thread.expect("a thread").join().expect("no panic");
}

#[test]
fn two_mebibytes() {
    for (_, call) in calls() {
        on_a_stack(2 << 20, call);
    }
}

#[test]
fn one_mebibyte() {
    for (_, call) in calls() {
        on_a_stack(1 << 20, call);
    }
}

/// One call on one stack, for `the_least_stack_is_measured`: a stack that does
/// not suffice ends the process.
#[test]
#[ignore = "run by the_least_stack_is_measured"]
fn one_call() {
    let number = |name| std::env::var(name).ok().and_then(|word| word.parse::<usize>().ok());
    if let (Some(place), Some(bytes)) = (number("STACK_CALL"), number("STACK_BYTES")) {
        let (_, call) = calls().swap_remove(place);
        on_a_stack(bytes, call);
    }
}

fn suffices(place: usize, bytes: usize) -> bool {
    Command::new(std::env::current_exe().expect("this program"))
        .args(["one_call", "--exact", "--ignored", "--quiet"])
        .env("STACK_CALL", place.to_string())
        .env("STACK_BYTES", bytes.to_string())
        .stdout(Stdio::null())
        .stderr(Stdio::null())
        .status()
        .expect("this program runs again")
        .success()
}

/// The least number of steps of 16 KiB, up to 1 MiB, found by halving.
#[test]
fn the_least_stack_is_measured() {
    const STEP: usize = 16 << 10;
    for (place, (name, _)) in calls().into_iter().enumerate() {
        let (mut less, mut enough) = (0, (1 << 20) / STEP);
        assert!(suffices(place, enough * STEP), "{name} wants more than 1 MiB");
        while less + 1 < enough {
            let middle = (less + enough) / 2;
            if suffices(place, middle * STEP) { enough = middle } else { less = middle }
        }
        println!("{name:<36} {} KiB", (enough * STEP) >> 10);
    }
}
