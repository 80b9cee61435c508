//! Makes an input on which two implementations differ smaller, step by step,
//! as long as they still differ. Spec tables are left as they are.

use crate::check::{Input, differs};
use crate::engine::Engine;
use crate::generate::solver::SolverInput;
use crate::model::Model;
use crate::value::{Kind, LayoutInput, List, Reals, SLOTS, Slot, TileTree, WIDTH};

pub fn shrunk(input: Input, left: &mut dyn Engine, right: &mut dyn Engine) -> Input {
    let mut smallest = input;
    while let Some(smaller) =
        smaller_ones(&smallest).into_iter().find(|smaller| differs(smaller, left, right))
    {
        smallest = smaller;
    }
    smallest
}

/// Inputs with one thing less; each step takes something away for good.
fn smaller_ones(input: &Input) -> Vec<Input> {
    match input {
        Input::Solve(input) => smaller_solves(input).into_iter().map(Input::Solve).collect(),
        Input::Repair(tree) => smaller_trees(tree).into_iter().map(Input::Repair).collect(),
        Input::Operation(tree, op) => {
            repaired(smaller_trees(tree)).map(|tree| Input::Operation(tree, *op)).collect()
        }
        Input::Layout(tree, input) => {
            let simpler = simpler_layouts(input).into_iter();
            let simpler = simpler.map(|input| Input::Layout(tree.clone(), input));
            let trees = repaired(smaller_trees(tree));
            simpler.chain(trees.map(|tree| Input::Layout(tree, *input))).collect()
        }
        Input::Spec(_) => Vec::new(),
    }
}

/// Operations and layouts want sound trees.
fn repaired(trees: Vec<TileTree>) -> impl Iterator<Item = TileTree> {
    trees.into_iter().map(|tree| Model.repair(&tree).tree)
}

fn without<T: Copy>(list: &List<T>, at: usize) -> List<T> {
    let mut list = *list;
    if (at as u64) < list.len && !list.too_long() {
        list.at.copy_within(at + 1.., at);
        list.len -= 1;
    }
    list
}

/// The same list with one number plainer, if it was not plain already.
fn plainer(list: &Reals, at: usize, plain: f64) -> Option<Reals> {
    let is_there = at < list.entries().len() && list.at[at].to_bits() != plain.to_bits();
    is_there.then(|| {
        let mut list = *list;
        list.at[at] = plain;
        list
    })
}

fn smaller_solves(input: &SolverInput) -> Vec<SolverInput> {
    let mut smaller = Vec::new();
    for at in 0..input.shares.entries().len() {
        let (shares, minima) = (without(&input.shares, at), without(&input.minima, at));
        if shares.len < input.shares.len {
            smaller.push(SolverInput { shares, minima, ..*input });
        }
    }
    for at in 0..WIDTH {
        let shares = plainer(&input.shares, at, 1.0);
        smaller.extend(shares.map(|shares| SolverInput { shares, ..*input }));
        let minima = plainer(&input.minima, at, 0.0);
        smaller.extend(minima.map(|minima| SolverInput { minima, ..*input }));
    }
    if input.total != 100.0 {
        smaller.push(SolverInput { total: 100.0, ..*input });
    }
    smaller
}

fn smaller_trees(tree: &TileTree) -> Vec<TileTree> {
    let mut smaller = Vec::new();
    let mut with = |at: usize, slot: Slot| {
        let mut other = tree.clone();
        other.slots[at] = slot;
        smaller.push(other);
    };
    for at in (0..SLOTS).filter(|&at| !tree.slots[at].is_empty()) {
        let slot = tree.slots[at];
        with(at, Slot::EMPTY);
        for slot in smaller_slots(&slot) {
            with(at, slot);
        }
    }
    if tree.revision != 0 {
        smaller.push(TileTree { revision: 0, ..tree.clone() });
    }
    smaller
}

fn smaller_slots(slot: &Slot) -> Vec<Slot> {
    let mut smaller = Vec::new();
    match slot.kind {
        Kind::Empty | Kind::Pane(_) => {}
        Kind::Tabs(_) => {
            for at in 0..slot.panes.entries().len() {
                smaller.push(Slot { panes: without(&slot.panes, at), ..*slot });
            }
        }
        Kind::Split(_) => {
            for at in 0..slot.children.entries().len() {
                let (children, shares) = (without(&slot.children, at), without(&slot.shares, at));
                let minima = without(&slot.minima, at);
                smaller.push(Slot { children, shares, minima, ..*slot });
            }
            for at in 0..WIDTH {
                let shares = plainer(&slot.shares, at, 1.0);
                smaller.extend(shares.map(|shares| Slot { shares, ..*slot }));
                let minima = plainer(&slot.minima, at, 0.0);
                smaller.extend(minima.map(|minima| Slot { minima, ..*slot }));
            }
            if slot.minima.len > 0 {
                smaller.push(Slot { minima: Reals::EMPTY, ..*slot });
            }
        }
    }
    // A list given too long cannot be cut, and such a slot is no smaller.
    smaller.retain(|other| size(other) < size(slot) || plain_numbers(other) > plain_numbers(slot));
    smaller
}

fn size(slot: &Slot) -> u64 {
    let lengths = [slot.panes.len, slot.children.len, slot.shares.len, slot.minima.len];
    lengths.into_iter().fold(0, u64::saturating_add)
}

fn plain_numbers(slot: &Slot) -> usize {
    let plain = |list: &Reals, plain: f64| {
        list.entries().iter().filter(|number| number.to_bits() == plain.to_bits()).count()
    };
    plain(&slot.shares, 1.0) + plain(&slot.minima, 0.0)
}

type Field = fn(&mut LayoutInput) -> &mut f64;

fn simpler_layouts(input: &LayoutInput) -> Vec<LayoutInput> {
    let mut simpler = Vec::new();
    let fields: [(Field, f64); 8] = [
        (|input| &mut input.outer.x0, 0.0),
        (|input| &mut input.outer.y0, 0.0),
        (|input| &mut input.outer.x1, 100.0),
        (|input| &mut input.outer.y1, 100.0),
        (|input| &mut input.handle, 0.0),
        (|input| &mut input.bar, 0.0),
        (|input| &mut input.min_width, 0.0),
        (|input| &mut input.min_height, 0.0),
    ];
    for (field, plain) in fields {
        let mut other = *input;
        if field(&mut other).to_bits() != plain.to_bits() {
            *field(&mut other) = plain;
            simpler.push(other);
        }
    }
    simpler
}
