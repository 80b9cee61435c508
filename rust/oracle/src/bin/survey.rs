//! What the generators reach: refusals, passes, actions and sizes, counted over
//! the model's answers. `survey [count] [seed]`.

use std::collections::BTreeMap;

use oracle::check::{KINDS, Kind, RUN, layout_case, run_start};
use oracle::engine::Engine;
use oracle::generate::hostile::arena;
use oracle::generate::operations::operation;
use oracle::generate::rng::Rng;
use oracle::generate::solver::solver_input;
use oracle::generate::tables::table;
use oracle::model::Model;
use oracle::value::{Action, Refusal, TileOp, TileTree};

type Counts = BTreeMap<String, u64>;

fn main() {
    let mut words = std::env::args().skip(1).map(|word| word.parse().expect("a number"));
    let count = words.next().unwrap_or(20_000);
    let seed = words.next().unwrap_or(1);
    for kind in KINDS {
        let mut counts = Counts::new();
        for case in 0..count {
            survey(kind, seed, case, &mut counts);
        }
        println!("{} ({count} cases)", kind.name());
        for (what, times) in counts {
            println!("  {what:<44} {times}");
        }
    }
}

fn add(counts: &mut Counts, what: String) {
    *counts.entry(what).or_default() += 1;
}

fn refusal(refusal: Option<Refusal>) -> String {
    refusal.map_or("accepted".to_string(), |it| format!("refused {:>2}", it.number))
}

fn tiles(tree: &TileTree) -> usize {
    tree.slots.iter().filter(|slot| !slot.is_empty()).count()
}

fn survey(kind: Kind, seed: u64, case: u64, counts: &mut Counts) {
    let mut rng = kind.rng(seed, case);
    match kind {
        Kind::Solve => survey_solve(&mut rng, counts),
        Kind::Repair => survey_repair(&mut rng, counts),
        Kind::Operations => survey_run(&mut rng, counts),
        Kind::Layout => survey_layout(&mut rng, counts),
        Kind::Spec => survey_spec(&mut rng, counts),
    }
}

fn survey_solve(rng: &mut Rng, counts: &mut Counts) {
    let input = solver_input(rng);
    let answer = Model.solve(input.total, &input.shares, &input.minima);
    add(counts, refusal(answer.refusal));
    add(counts, format!("passes {:>2}", answer.passes));
}

fn survey_repair(rng: &mut Rng, counts: &mut Counts) {
    let tree = arena(rng);
    let answer = Model.repair(&tree);
    add(counts, refusal(answer.refusal));
    add(counts, format!("sound {}", Model.is_sound(&tree)));
    add(counts, format!("actions from {:>4}", answer.actions.len().next_power_of_two() / 2));
    add(counts, format!("tiles given from {:>2}", tiles(&tree) / 8 * 8));
    add(counts, format!("tiles left from {:>2}", tiles(&answer.tree) / 8 * 8));
    for action in answer.actions {
        add(counts, format!("action {}", name(action)));
    }
}

fn survey_run(rng: &mut Rng, counts: &mut Counts) {
    let mut tree = run_start(rng);
    for _ in 0..RUN {
        let op = operation(rng, &tree);
        let answer = Model.apply(&tree, &op);
        let unchanged = answer.refusal.is_none() && answer.tree.revision == tree.revision;
        let what = if unchanged { "unchanged".to_string() } else { refusal(answer.refusal) };
        add(counts, format!("{} {what}", op_name(&op)));
        tree = answer.tree;
    }
    add(counts, format!("tiles from {:>2}", tiles(&tree) / 8 * 8));
}

fn survey_layout(rng: &mut Rng, counts: &mut Counts) {
    let (tree, input) = layout_case(rng);
    let answer = Model.layout(&tree, &input);
    add(counts, refusal(answer.refusal));
    add(counts, format!("panes from {:>3}", answer.frame.panes.len() / 8 * 8));
    add(counts, format!("tabs from {:>3}", answer.frame.tabs.len() / 16 * 16));
}

fn survey_spec(rng: &mut Rng, counts: &mut Counts) {
    let answer = Model.from_spec(&table(rng));
    add(counts, refusal(answer.refusal));
    add(counts, format!("tiles from {:>2}", tiles(&answer.tree) / 8 * 8));
}

fn name(action: Action) -> &'static str {
    match action {
        Action::RemovedInvalidNode(_) => "RemovedInvalidNode",
        Action::RepairedActiveTab(_) => "RepairedActiveTab",
        Action::RepairedShares(_) => "RepairedShares",
        Action::RepairedConstraints(_) => "RepairedConstraints",
        Action::CollapsedSplit(_) => "CollapsedSplit",
        Action::RemovedDuplicatePane { .. } => "RemovedDuplicatePane",
    }
}

fn op_name(op: &TileOp) -> &'static str {
    match op {
        TileOp::Activate { .. } => "activate",
        TileOp::Close { .. } => "close",
        TileOp::SplitPane { .. } => "split pane",
        TileOp::Move { .. } => "move",
        TileOp::Reorder { .. } => "reorder",
    }
}
