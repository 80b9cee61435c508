//! The original as an implementation of document 01.
//!
//! What the Rust decides is asked of the Rust. What document 01 adds is put
//! around it here, from the original's own arenas and not from the model: a
//! list over 16 is looked for in the arena that the original's change or repair
//! left behind, and the new tiles needed are those that it appended.

use super::convert::{Names, NewSlots, unsigned};
use super::frames::{frame_back, input_is_good, input_there};
use super::table::spec_of;
use crate::counted::solve_counted;
use crate::engine::Engine;
use crate::snapshot::RepairAction;
use crate::tree::{change, repair, slot_count, slots};
use crate::util::solve_lengths_with_min;
use crate::value::{
    self, Action, DockTarget, Frame, Kind, LayoutAnswer, LayoutInput, Reals, Refusal, RepairAnswer,
    SLOTS, SolveAnswer, TileOp, TreeAnswer, same_tree, same_tree_bits,
};
use crate::{TileError, TileNode, TileSpecError, TileTree};

pub struct Original;

impl Engine for Original {
    fn name(&self) -> &'static str {
        "original"
    }

    fn from_spec(&mut self, bytes: &[u8]) -> TreeAnswer {
        match from_spec(bytes) {
            Ok(tree) => TreeAnswer { refusal: None, tree },
            Err(refusal) => {
                TreeAnswer { refusal: Some(refusal), tree: value::TileTree::lone_empty_root() }
            }
        }
    }

    fn repair(&mut self, tree: &value::TileTree) -> RepairAnswer {
        match repaired(tree) {
            Ok((tree, actions)) => RepairAnswer { refusal: None, tree, actions },
            Err(refusal) => {
                RepairAnswer { refusal: Some(refusal), tree: tree.clone(), actions: Vec::new() }
            }
        }
    }

    fn is_sound(&mut self, tree: &value::TileTree) -> bool {
        is_sound(tree)
    }

    fn apply(&mut self, tree: &value::TileTree, op: &TileOp) -> TreeAnswer {
        match applied(tree, op) {
            Ok(tree) => TreeAnswer { refusal: None, tree },
            Err(refusal) => TreeAnswer { refusal: Some(refusal), tree: tree.clone() },
        }
    }

    fn layout(&mut self, tree: &value::TileTree, input: &LayoutInput) -> LayoutAnswer {
        match laid_out(tree, input) {
            Ok(frame) => LayoutAnswer { refusal: None, frame },
            Err(refusal) => LayoutAnswer { refusal: Some(refusal), frame: Frame::default() },
        }
    }

    fn solve(&mut self, total: f64, shares: &Reals, minima: &Reals) -> SolveAnswer {
        match solved(total, shares, minima) {
            Ok((lengths, passes)) => SolveAnswer { refusal: None, lengths, passes },
            Err(refusal) => SolveAnswer { refusal: Some(refusal), lengths: Vec::new(), passes: 0 },
        }
    }
}

fn from_spec(bytes: &[u8]) -> Result<value::TileTree, Refusal> {
    let tree = TileTree::from_spec(spec_of(bytes)?).map_err(spec_refusal)?;
    refuse_wide(&tree)?;
    Ok(NewSlots { empty_at_start: &[], throwaways: 0 }.tree_back(&tree))
}

fn spec_refusal(error: TileSpecError) -> Refusal {
    match error {
        TileSpecError::EmptyTabs => Refusal::EMPTY_TABS,
        TileSpecError::TooFewSplitChildren { children } => {
            Refusal::too_few_split_children(children as u64)
        }
        TileSpecError::ShareCountMismatch { children, shares } => {
            Refusal::share_count_mismatch(children as u64, shares as u64)
        }
        TileSpecError::InvalidShare { index } => Refusal::invalid_share(index as u64),
        TileSpecError::TooManySplitConstraints { children, constraints } => {
            Refusal::too_many_split_constraints(children as u64, constraints as u64)
        }
        TileSpecError::InvalidSplitConstraint { index } => {
            Refusal::invalid_split_constraint(index as u64)
        }
        TileSpecError::InvalidActiveTab { active, panes } => {
            Refusal::invalid_active_tab(active as u64, panes as u64)
        }
        TileSpecError::DuplicatePane(pane) => Refusal::duplicate_pane(pane.0),
    }
}

/// 3 where any tile of the original's arena has a list over 16.
fn refuse_wide(tree: &TileTree) -> Result<(), Refusal> {
    let wide = slots(tree).flatten().any(|node| match node {
        TileNode::Pane(_) => false,
        TileNode::Tabs(tabs) => tabs.panes.len() > 16,
        TileNode::Split(split) => split.children.len() > 16,
    });
    if wide { Err(Refusal::TOO_WIDE) } else { Ok(()) }
}

fn repaired(tree: &value::TileTree) -> Result<(value::TileTree, Vec<Action>), Refusal> {
    if tree.slots.iter().any(given_too_long) {
        return Err(Refusal::TOO_WIDE);
    }
    let mut names = Names::default();
    let mut arena = names.arena(tree);
    let actions = repair(&mut arena);
    refuse_wide(&arena)?;
    let empty_at_start = tree.empty_slots();
    if slot_count(&arena) - SLOTS > empty_at_start.len() {
        return Err(Refusal::ARENA_FULL);
    }
    let new = NewSlots { empty_at_start: &empty_at_start, throwaways: 0 };
    let actions = actions.iter().map(|action| action_back(action, &names)).collect();
    Ok((new.tree_back(&arena), actions))
}

fn given_too_long(slot: &value::Slot) -> bool {
    let lengths = match slot.kind {
        Kind::Empty | Kind::Pane(_) => [0, 0, 0],
        Kind::Tabs(_) => [slot.panes.len, 0, 0],
        Kind::Split(_) => [slot.children.len, slot.shares.len, slot.minima.len],
    };
    lengths.iter().any(|&length| length > 16)
}

fn action_back(action: &RepairAction, names: &Names) -> Action {
    match *action {
        RepairAction::RemovedInvalidNode(tile) => Action::RemovedInvalidNode(names.back(tile)),
        RepairAction::RepairedActiveTab(tile) => Action::RepairedActiveTab(names.back(tile)),
        RepairAction::RepairedShares(tile) => Action::RepairedShares(names.back(tile)),
        RepairAction::RepairedConstraints(tile) => Action::RepairedConstraints(names.back(tile)),
        RepairAction::CollapsedSplit(tile) => Action::CollapsedSplit(names.back(tile)),
        RepairAction::RemovedDuplicatePane { pane, tile } => {
            Action::RemovedDuplicatePane { pane: pane.0, tile: names.back(tile) }
        }
    }
}

fn is_sound(tree: &value::TileTree) -> bool {
    if is_lone_empty_root(tree) {
        return true;
    }
    match repaired(tree) {
        Err(_) => false,
        Ok((out, actions)) => {
            // A repair without actions leaves an equal tree, one with any does not.
            assert_eq!(actions.is_empty(), same_tree(&out, tree), "{tree:?}");
            actions.is_empty()
        }
    }
}

fn is_lone_empty_root(tree: &value::TileTree) -> bool {
    let others = tree.slots.iter().enumerate().filter(|(at, _)| *at as u64 != tree.root.slot);
    let root = tree.slots.get(tree.root.slot.min(SLOTS as u64) as usize);
    others.into_iter().all(|(_, slot)| slot.is_empty())
        && root.is_some_and(|slot| {
            slot.kind == Kind::Tabs(value::TabBarPlacement::Hidden)
                && (slot.panes.len, slot.active) == (0, 0)
        })
}

fn applied(tree: &value::TileTree, op: &TileOp) -> Result<value::TileTree, Refusal> {
    if !is_sound(tree) {
        return Err(Refusal::NOT_SOUND);
    }
    let mut names = Names::default();
    let mut arena = names.arena(tree);
    let before = arena.clone();
    let op_there = names.op(op);
    if !change(&mut arena, op_there.clone()).map_err(op_refusal)? {
        return Ok(tree.clone());
    }
    let empty_at_start = tree.empty_slots();
    let new = NewSlots { empty_at_start: &empty_at_start, throwaways: throwaways(op) };
    if slot_count(&arena) - SLOTS - new.throwaways > empty_at_start.len() {
        return Err(Refusal::ARENA_FULL);
    }
    refuse_wide(&arena)?;
    if tree.revision == u64::MAX {
        return Err(Refusal::REVISION_EXHAUSTED);
    }
    repair(&mut arena);
    refuse_wide(&arena)?;
    let mut out = new.tree_back(&arena);
    out.revision += 1;
    agrees_with_public_apply(before, op_there, &new, &out);
    Ok(out)
}

/// The steps above are those of the original's own `apply`; its answer is
/// asked too, except for the last pane, which it does not close.
fn agrees_with_public_apply(
    mut tree: TileTree,
    op: crate::TileOp,
    new: &NewSlots<'_>,
    out: &value::TileTree,
) {
    match tree.apply(op) {
        Ok(()) => assert!(same_tree_bits(&new.tree_back(&tree), out)),
        Err(error) => assert_eq!(error, TileError::CannotCloseLastPane),
    }
}

/// Every move appends a pane tile first; to the root and into a group it is
/// not used.
fn throwaways(op: &TileOp) -> usize {
    match op {
        TileOp::Move { target: DockTarget::Root | DockTarget::Into { .. }, .. } => 1,
        _ => 0,
    }
}

fn op_refusal(error: TileError) -> Refusal {
    match error {
        TileError::InvalidTileId => Refusal::INVALID_TILE_ID,
        TileError::InvalidPaneId => Refusal::INVALID_PANE_ID,
        TileError::InvalidTarget => Refusal::INVALID_TARGET,
        TileError::InvalidOperation => Refusal::INVALID_OPERATION,
        TileError::DuplicatePane(pane) => Refusal::duplicate_pane(pane.0),
        other => unreachable!("no change answers {other:?}"),
    }
}

fn laid_out(tree: &value::TileTree, input: &LayoutInput) -> Result<Frame, Refusal> {
    if !is_sound(tree) {
        return Err(Refusal::NOT_SOUND);
    }
    if !input_is_good(input) {
        return Err(Refusal::BAD_INPUT);
    }
    let mut plain = tree.clone();
    for slot in plain.slots.iter_mut() {
        slot.minima.at = slot.minima.at.map(unsigned);
    }
    let arena = Names::default().arena(&plain);
    Ok(frame_back(&arena.layout(input_there(input))))
}

fn solved(total: f64, shares: &Reals, minima: &Reals) -> Result<(Vec<f64>, u64), Refusal> {
    let lists_are_good = shares.len <= 16 && minima.len == shares.len;
    let numbers_are_good = in_range(total, 0.0)
        && shares.entries().iter().all(|&share| in_range(share, f64::from_bits(1)))
        && minima.entries().iter().all(|&minimum| in_range(minimum, 0.0));
    if !lists_are_good || !numbers_are_good {
        return Err(Refusal::BAD_INPUT);
    }
    let total = unsigned(total);
    let minima: Vec<f64> = minima.entries().iter().map(|&minimum| unsigned(minimum)).collect();
    let (lengths, passes) = solve_counted(total, shares.entries(), &minima);
    let uncounted = solve_lengths_with_min(total, shares.entries(), &minima);
    assert!(lengths.iter().zip(&uncounted).all(|(a, b)| a.to_bits() == b.to_bits()));
    Ok((lengths, passes))
}

fn in_range(number: f64, least: f64) -> bool {
    number >= least && number <= f64::MAX
}

/// What the original's own `apply` says, with nothing of document 01 around it:
/// for the tests that show where the two part.
pub fn bare_apply(tree: &value::TileTree, op: &TileOp) -> Result<(), String> {
    let mut names = Names::default();
    let mut arena = names.arena(tree);
    let op = names.op(op);
    arena.apply(op).map_err(|error| format!("{error:?}"))
}
