//! The original and the library on the same desks, call by call.
//!
//! What a host would call is measured, each on its own types: conversions, the
//! trees that a call changes and the dropping of what it returns stand outside
//! the measured part. The two take turns, so that a busy machine slows both.

mod desks;

use std::hint::black_box;
use std::time::Instant;

use oracle::engine::Engine;
use oracle::model::Model;
use oracle::original::own;
use tiling::{FrameBuffer, TileTree};

use self::desks::{DESKS, Desk, damaged, layout_input};
use crate::columns::arena_of;
use crate::convert::{input_here, op_here};

/// A short call is measured so many times in a row.
const IN_A_ROW: u64 = 32;

pub fn run(repetitions: usize) {
    let bench = Bench { repetitions, clock: clock(repetitions) };
    println!("| desk | call | original ns | library ns | ratio |");
    println!("|---|---|---|---|---|");
    for desk in &DESKS {
        bench.desk(desk);
    }
}

struct Bench {
    repetitions: usize,
    /// What reading the clock twice takes.
    clock: f64,
}

impl Bench {
    fn desk(&self, desk: &Desk) {
        self.spec(desk);
        self.operations(desk);
        self.repair(desk);
        self.layout(desk);
        self.solve(desk);
    }

    fn spec(&self, desk: &Desk) {
        let spec = desk.spec();
        let table = spec.table();
        let spec_there = own::spec(&table);
        self.race(
            desk,
            "from_spec",
            || clocked(spec_there.clone(), |spec| own::TileTree::from_spec(spec).unwrap()),
            || clocked(spec.clone(), |spec| TileTree::from_spec(spec).unwrap()),
        );
        self.race(
            desk,
            "from_spec (library: from_table)",
            || clocked(spec_there.clone(), |spec| own::TileTree::from_spec(spec).unwrap()),
            || clocked((), |()| TileTree::from_table(black_box(&table)).unwrap()),
        );
    }

    fn operations(&self, desk: &Desk) {
        let table = desk.spec().table();
        let there = own::TileTree::from_spec(own::spec(&table)).unwrap();
        let here = TileTree::from_table(&table).unwrap();
        for (name, op) in desk.operations(&Model.from_spec(&table).tree) {
            let (op_there, op_here) = (own::op(&op), op_here(&op));
            self.race(
                desk,
                name,
                || {
                    clocked((there.clone(), op_there.clone()), |(mut tree, op)| {
                        tree.apply(op).unwrap();
                        tree
                    })
                },
                || {
                    clocked((here.clone(), op_here.clone()), |(mut tree, op)| {
                        tree.apply(op).unwrap();
                        tree
                    })
                },
            );
        }
    }

    fn repair(&self, desk: &Desk) {
        let sound = Model.from_spec(&desk.spec().table()).tree;
        for (name, tree) in [("repair, sound", sound.clone()), ("repair", damaged(&sound))] {
            let there = own::tree(&tree);
            let here = TileTree::from_arena(arena_of(&tree));
            let done = here.clone().repair().unwrap().len();
            assert_eq!(own::repair(&mut there.clone()).len(), done, "as many actions");
            self.race(
                desk,
                name,
                || {
                    clocked(there.clone(), |mut tree| {
                        let actions = own::repair(&mut tree);
                        (tree, actions)
                    })
                },
                || {
                    clocked(here.clone(), |mut tree| {
                        let actions = tree.repair().unwrap();
                        (tree, actions)
                    })
                },
            );
        }
    }

    fn layout(&self, desk: &Desk) {
        let table = desk.spec().table();
        let there = own::TileTree::from_spec(own::spec(&table)).unwrap();
        let here = TileTree::from_table(&table).unwrap();
        let (input_there, input) = (own::input(&layout_input()), input_here(&layout_input()));
        let painted = own::frame(&there.layout(input_there)).paint_order.len();
        assert_eq!(here.layout(input).unwrap().paint_order().len(), painted, "the same frame");
        self.race(
            desk,
            "layout",
            || clocked(input_there, |input| there.layout(input)),
            || clocked(input, |input| here.layout(input).unwrap()),
        );
        let mut buffer = FrameBuffer::new();
        self.race(
            desk,
            "layout (library: layout_into)",
            || clocked(input_there, |input| there.layout(input)),
            || clocked(input, |input| here.layout_into(input, &mut buffer).unwrap()),
        );
    }

    fn solve(&self, desk: &Desk) {
        let (total, shares, minima) = desk.solver_input();
        let (shares, minima) = (shares.entries(), minima.entries());
        self.race(
            desk,
            "solve",
            || in_a_row(|| own::solve(black_box(total), black_box(shares), black_box(minima))),
            || in_a_row(|| tiling::solve(black_box(total), black_box(shares), black_box(minima))),
        );
    }

    /// The medians of both, in turns, and a line of the table.
    fn race(
        &self,
        desk: &Desk,
        call: &str,
        mut there: impl FnMut() -> f64,
        mut here: impl FnMut() -> f64,
    ) {
        let (mut theirs, mut ours) = (Vec::new(), Vec::new());
        for _ in 0..self.repetitions {
            theirs.push(there());
            ours.push(here());
        }
        let [theirs, ours] = [theirs, ours].map(|times| (median(times) - self.clock).max(1.0));
        let ratio = ours / theirs;
        println!("| {} | {call} | {theirs:.0} | {ours:.0} | {ratio:.2} |", desk.panes);
    }
}

/// The nanoseconds of a call on what was prepared for it.
fn clocked<S, R>(prepared: S, call: impl FnOnce(S) -> R) -> f64 {
    let prepared = black_box(prepared);
    let started = Instant::now();
    let answer = black_box(call(prepared));
    let taken = started.elapsed();
    drop(answer);
    taken.as_nanos() as f64
}

fn in_a_row<R>(mut call: impl FnMut() -> R) -> f64 {
    let taken = clocked((), |()| {
        for _ in 0..IN_A_ROW {
            black_box(call());
        }
    });
    taken / IN_A_ROW as f64
}

fn median(mut times: Vec<f64>) -> f64 {
    times.sort_by(f64::total_cmp);
    times[times.len() / 2]
}

fn clock(repetitions: usize) -> f64 {
    median((0..repetitions).map(|_| clocked((), |()| ())).collect())
}
