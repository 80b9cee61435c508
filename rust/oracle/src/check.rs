//! One case of each kind, made from its numbers, put to two implementations.

use crate::engine::Engine;
use crate::generate::hostile::arena;
use crate::generate::inputs::layout_input;
use crate::generate::operations::operation;
use crate::generate::rng::Rng;
use crate::generate::solver::{SolverInput, solver_input};
use crate::generate::tables::table;
use crate::generate::trees::sound_tree;
use crate::value::{LayoutInput, TileOp, TileTree, TreeAnswer};
use crate::wire::Writer;

#[derive(Clone, Copy, Debug, PartialEq, Eq)]
pub enum Kind {
    Solve,
    Repair,
    Operations,
    Layout,
    Spec,
}

pub const KINDS: [Kind; 5] =
    [Kind::Solve, Kind::Repair, Kind::Operations, Kind::Layout, Kind::Spec];

/// A case of the kind Operations is a run of so many.
pub const RUN: usize = 20;

impl Kind {
    pub fn name(self) -> &'static str {
        match self {
            Kind::Solve => "solve",
            Kind::Repair => "repair",
            Kind::Operations => "operations",
            Kind::Layout => "layout",
            Kind::Spec => "spec",
        }
    }

    fn number(self) -> u64 {
        self as u64 + 1
    }

    pub fn rng(self, seed: u64, case: u64) -> Rng {
        Rng::new(seed, self.number(), case)
    }

    /// How many answers a case compares: a run has one for each operation.
    pub fn answers(self) -> u64 {
        if self == Kind::Operations { RUN as u64 } else { 1 }
    }
}

/// What is put to an implementation.
#[derive(Clone)]
pub enum Input {
    Solve(SolverInput),
    Repair(TileTree),
    Operation(TileTree, TileOp),
    Layout(TileTree, LayoutInput),
    Spec(Vec<u8>),
}

/// Puts one case to both; the error is the input that they answer differently.
pub fn compare(
    kind: Kind,
    seed: u64,
    case: u64,
    left: &mut dyn Engine,
    right: &mut dyn Engine,
) -> Result<(), Box<Input>> {
    let mut rng = kind.rng(seed, case);
    let input = match kind {
        Kind::Solve => Input::Solve(solver_input(&mut rng)),
        Kind::Repair => Input::Repair(arena(&mut rng)),
        Kind::Operations => return compare_run(&mut rng, left, right),
        Kind::Layout => {
            let (tree, input) = layout_case(&mut rng);
            Input::Layout(tree, input)
        }
        Kind::Spec => Input::Spec(table(&mut rng)),
    };
    if differs(&input, left, right) { Err(Box::new(input)) } else { Ok(()) }
}

/// Each operation is put to the tree that the one before it left.
fn compare_run(
    rng: &mut Rng,
    left: &mut dyn Engine,
    right: &mut dyn Engine,
) -> Result<(), Box<Input>> {
    let mut tree = run_start(rng);
    for _ in 0..RUN {
        let op = operation(rng, &tree);
        let (a, b) = (left.apply(&tree, &op), right.apply(&tree, &op));
        if written(|to| to.apply_answer(&tree, &a)) != written(|to| to.apply_answer(&tree, &b)) {
            return Err(Box::new(Input::Operation(tree, op)));
        }
        tree = a.tree;
    }
    Ok(())
}

/// Every part of both answers is compared, as it is written.
pub fn differs(input: &Input, left: &mut dyn Engine, right: &mut dyn Engine) -> bool {
    written_answer(input, left) != written_answer(input, right)
}

fn written_answer(input: &Input, engine: &mut dyn Engine) -> Vec<u8> {
    match input {
        Input::Solve(input) => {
            let answer = engine.solve(input.total, &input.shares, &input.minima);
            written(|to| to.solve_answer(&answer))
        }
        Input::Repair(tree) => {
            let (answer, sound) = (engine.repair(tree), engine.is_sound(tree));
            written(|to| to.repair_answer(tree, sound, &answer))
        }
        Input::Operation(tree, op) => {
            let answer = engine.apply(tree, op);
            written(|to| to.apply_answer(tree, &answer))
        }
        Input::Layout(tree, input) => {
            let answer = engine.layout(tree, input);
            written(|to| to.layout_answer(&answer))
        }
        Input::Spec(bytes) => {
            let answer = engine.from_spec(bytes);
            written(|to| to.spec_answer(&answer))
        }
    }
}

fn written(write: impl Fn(&mut Writer)) -> Vec<u8> {
    let mut writer = Writer::default();
    write(&mut writer);
    writer.bytes
}

/// Mostly sound trees; now and then a hostile arena, to be refused.
pub fn layout_case(rng: &mut Rng) -> (TileTree, LayoutInput) {
    let tree = if rng.once_in(12) { arena(rng) } else { sound_tree(rng) };
    (tree, layout_input(rng))
}

/// The tree that a run of operations begins with.
pub fn run_start(rng: &mut Rng) -> TileTree {
    if rng.once_in(40) { arena(rng) } else { sound_tree(rng) }
}

/// An input for reading.
pub fn shown_input(input: &Input) -> String {
    match input {
        Input::Solve(input) => format!(
            "total {:?}\nshares[{}] {:?}\nminima[{}] {:?}",
            input.total,
            input.shares.len,
            input.shares.entries(),
            input.minima.len,
            input.minima.entries()
        ),
        Input::Repair(tree) => shown(tree),
        Input::Operation(tree, op) => format!("{op:?}\n{}", shown(tree)),
        Input::Layout(tree, input) => format!("{input:?}\n{}", shown(tree)),
        Input::Spec(bytes) => format!("{bytes:02x?}"),
    }
}

/// An answer for reading.
pub fn shown_answer(input: &Input, engine: &mut dyn Engine) -> String {
    let tree = |answer: TreeAnswer| format!("{:?}\n{}", answer.refusal, shown(&answer.tree));
    match input {
        Input::Solve(input) => {
            format!("{:?}", engine.solve(input.total, &input.shares, &input.minima))
        }
        Input::Repair(given) => {
            let (answer, sound) = (engine.repair(given), engine.is_sound(given));
            let after = shown(&answer.tree);
            format!("sound {sound}, {:?}\n{:?}\n{after}", answer.refusal, answer.actions)
        }
        Input::Operation(given, op) => tree(engine.apply(given, op)),
        Input::Layout(given, input) => format!("{:#?}", engine.layout(given, input)),
        Input::Spec(bytes) => tree(engine.from_spec(bytes)),
    }
}

/// A tree for reading: its occupied slots, one to a line, used parts only.
pub fn shown(tree: &TileTree) -> String {
    use crate::value::Kind;
    let mut text = format!("root {} revision {}", tree.root.slot, tree.revision);
    for (at, slot) in tree.slots.iter().enumerate() {
        let line = match slot.kind {
            Kind::Empty => continue,
            Kind::Pane(pane) => format!("pane {pane}"),
            Kind::Tabs(bar) => format!(
                "tabs {bar:?} active {} panes[{}] {:?}",
                slot.active,
                slot.panes.len,
                slot.panes.entries()
            ),
            Kind::Split(axis) => format!(
                "split {axis:?} children[{}] {:?} shares[{}] {:?} minima[{}] {:?}",
                slot.children.len,
                slot.children.entries().iter().map(|child| child.slot).collect::<Vec<_>>(),
                slot.shares.len,
                slot.shares.entries(),
                slot.minima.len,
                slot.minima.entries()
            ),
        };
        text += &format!("\n  slot {at}: {line}");
    }
    text
}
