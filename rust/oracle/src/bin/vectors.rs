//! Writes the stored answers: a fixed sample of cases with the model's answers,
//! each of which the original has confirmed. docs/VECTORS.md has the format.
//!
//! vectors [folder], by default oracle/vectors seen from the folder rust.

use std::fs;
use std::path::{Path, PathBuf};

use oracle::check::{
    Input, Kind, RUN, compare, differs, layout_case, run_start, shown, shown_input,
};
use oracle::engine::Engine;
use oracle::generate::hand;
use oracle::generate::hostile::arena;
use oracle::generate::operations::operation;
use oracle::generate::rng::Rng;
use oracle::generate::solver::solver_input;
use oracle::generate::tables::table;
use oracle::model::Model;
use oracle::the_original;
use oracle::value::TileTree;
use oracle::wire::Writer;

/// Not the comparison's usual seed, so that a stored case is one of its own.
const SEED: u64 = 20_260_101;

/// A reader may keep a case in a buffer of this size.
const LARGEST_BODY: usize = 65_536;
const LARGEST_FILE: usize = 4_000_000;

struct File {
    kind: Kind,
    name: &'static str,
    magic: &'static [u8; 8],
    cases: u64,
}

const FILES: [File; 5] = [
    File { kind: Kind::Solve, name: "solve.bin", magic: b"DVSOLVE1", cases: 4000 },
    File { kind: Kind::Repair, name: "repair.bin", magic: b"DVREPAI1", cases: 2000 },
    File { kind: Kind::Operations, name: "operations.bin", magic: b"DVOPERA1", cases: 1000 },
    File { kind: Kind::Layout, name: "layout.bin", magic: b"DVLAYOU1", cases: 800 },
    File { kind: Kind::Spec, name: "spec.bin", magic: b"DVSPECS1", cases: 2000 },
];

fn main() {
    let mut original = the_original().expect("UNDERSTORY_SRC names the original's folder");
    let folder = std::env::args().nth(1).map_or_else(default_folder, PathBuf::from);
    fs::create_dir_all(&folder).expect("the folder can be made");
    for file in &FILES {
        write(&folder, file, original.as_mut());
    }
}

fn default_folder() -> PathBuf {
    Path::new(env!("CARGO_MANIFEST_DIR")).join("vectors")
}

fn write(folder: &Path, file: &File, original: &mut dyn Engine) {
    let mut out = Writer::default();
    out.bytes.extend(file.magic);
    let mut bodies = by_hand(file.kind, original);
    bodies.extend(drawn(file, original));
    out.number(bodies.len() as u64);
    let mut largest = 0;
    for body in &bodies {
        assert!(body.len() <= LARGEST_BODY, "a case of {} is too large", file.name);
        largest = largest.max(body.len());
        out.number(body.len() as u64);
        out.bytes.extend(body);
    }
    assert!(out.bytes.len() < LARGEST_FILE, "{} is too large: {}", file.name, out.bytes.len());
    fs::write(folder.join(file.name), &out.bytes).expect("the file can be written");
    println!(
        "{:<15} {} cases, {} bytes, largest case {largest} bytes",
        file.name,
        bodies.len(),
        out.bytes.len()
    );
}

/// Arenas made by hand stand before those that are drawn.
fn by_hand(kind: Kind, original: &mut dyn Engine) -> Vec<Vec<u8>> {
    if kind != Kind::Repair {
        return Vec::new();
    }
    hand::arenas().iter().map(|tree| confirmed_repair(tree, original)).collect()
}

fn confirmed_repair(tree: &TileTree, original: &mut dyn Engine) -> Vec<u8> {
    let input = Input::Repair(tree.clone());
    assert!(!differs(&input, original, &mut Model), "the original differs on {}", shown(tree));
    repair_body(tree)
}

fn drawn<'a>(
    file: &'a File,
    original: &'a mut dyn Engine,
) -> impl Iterator<Item = Vec<u8>> + use<'a> {
    (0..file.cases).map(|case| {
        confirm(file.kind, case, original);
        body(file.kind, &mut file.kind.rng(SEED, case))
    })
}

/// No answer is stored that the original does not give as well.
fn confirm(kind: Kind, case: u64, original: &mut dyn Engine) {
    if let Err(input) = compare(kind, SEED, case, original, &mut Model) {
        panic!("the original differs on {} case {case}:\n{}", kind.name(), shown_input(&input));
    }
}

fn body(kind: Kind, rng: &mut Rng) -> Vec<u8> {
    let mut out = Writer::default();
    match kind {
        Kind::Solve => {
            let input = solver_input(rng);
            out.real(input.total);
            out.reals(&input.shares);
            out.reals(&input.minima);
            out.solve_answer(&Model.solve(input.total, &input.shares, &input.minima));
        }
        Kind::Repair => return repair_body(&arena(rng)),
        Kind::Operations => run(&mut out, rng),
        Kind::Layout => {
            let (tree, input) = layout_case(rng);
            out.tree(&tree);
            out.input(&input);
            out.layout_answer(&Model.layout(&tree, &input));
        }
        Kind::Spec => {
            let bytes = table(rng);
            out.number(bytes.len() as u64);
            out.bytes.extend(&bytes);
            out.spec_answer(&Model.from_spec(&bytes));
        }
    }
    out.bytes
}

fn repair_body(tree: &TileTree) -> Vec<u8> {
    let mut out = Writer::default();
    out.tree(tree);
    out.repair_answer(tree, Model.is_sound(tree), &Model.repair(tree));
    out.bytes
}

fn run(out: &mut Writer, rng: &mut Rng) {
    let mut tree = run_start(rng);
    out.tree(&tree);
    out.number(RUN as u64);
    for _ in 0..RUN {
        let op = operation(rng, &tree);
        let answer = Model.apply(&tree, &op);
        out.op(&op);
        out.apply_answer(&tree, &answer);
        tree = answer.tree;
    }
}
