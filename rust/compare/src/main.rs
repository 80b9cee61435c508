//! Runs implementations of document 01 side by side over generated cases and
//! shows the first difference, with the command that makes it again.
//!
//! compare [--kind NAME] [--seed N] [--count N] [--case N] [--left NAME] [--right NAME]
//!
//! Without --kind every kind is run. --count is in answers (a case of the kind
//! operations has 20). --case runs one case only. --left and --right name the
//! implementations, by default the original and the library. Where the
//! original's sources were not at hand, the model stands in its place.

use std::panic::{AssertUnwindSafe, catch_unwind};
use std::process::ExitCode;
use std::time::Instant;

use compare::host::Host;
use compare::library::Library;
use oracle::check::{Input, KINDS, Kind, compare, shown_answer, shown_input};
use oracle::engine::Engine;
use oracle::model::Model;
use oracle::shrink::shrunk;
use oracle::the_original;

const USAGE: &str = "compare [--kind solve|repair|operations|layout|spec] [--seed N] [--count N] \
                     [--case N] [--left NAME] [--right NAME]; the names: original, model, library, host";

struct Request {
    kinds: Vec<Kind>,
    seed: u64,
    count: u64,
    case: Option<u64>,
    left: Box<dyn Engine>,
    right: Box<dyn Engine>,
}

/// Every implementation that can be compared; a new one is added here.
fn engine(name: &str) -> Option<Box<dyn Engine>> {
    match name {
        "original" => Some(original_or_model()),
        "model" => Some(Box::new(Model)),
        "library" => Some(Box::new(Library::default())),
        "host" => Some(Box::new(Host::default())),
        _ => None,
    }
}

fn original_or_model() -> Box<dyn Engine> {
    the_original().unwrap_or_else(|| {
        println!("the original is not at hand (UNDERSTORY_SRC): the model stands in its place");
        Box::new(Model)
    })
}

fn main() -> ExitCode {
    let Some(mut request) = request(std::env::args().skip(1)) else {
        eprintln!("{USAGE}");
        return ExitCode::FAILURE;
    };
    let mut same = true;
    for kind in request.kinds.clone() {
        same &= run(kind, &mut request);
    }
    if same { ExitCode::SUCCESS } else { ExitCode::FAILURE }
}

fn request(mut words: impl Iterator<Item = String>) -> Option<Request> {
    let (mut kinds, mut seed, mut count, mut case) = (KINDS.to_vec(), 1, 1_000_000, None);
    let (mut left, mut right) = ("original".to_string(), "library".to_string());
    while let Some(word) = words.next() {
        let value = words.next()?;
        match word.as_str() {
            "--kind" => kinds = vec![*KINDS.iter().find(|kind| kind.name() == value)?],
            "--seed" => seed = value.parse().ok()?,
            "--count" => count = value.parse().ok()?,
            "--case" => case = Some(value.parse().ok()?),
            "--left" => left = value,
            "--right" => right = value,
            _ => return None,
        }
    }
    Some(Request { kinds, seed, count, case, left: engine(&left)?, right: engine(&right)? })
}

/// All cases of a kind, or the one asked for; true if no difference was found.
fn run(kind: Kind, request: &mut Request) -> bool {
    let cases = match request.case {
        Some(case) => case..case + 1,
        None => 0..request.count.div_ceil(kind.answers()),
    };
    let (left, right) = (request.left.as_mut(), request.right.as_mut());
    let started = Instant::now();
    let count = (cases.end - cases.start) * kind.answers();
    for case in cases {
        // An implementation may also stop by a panic: its own, or one of the
        // assertions around the original. The case must be named then as well.
        let one = AssertUnwindSafe(|| compare(kind, request.seed, case, left, right));
        match catch_unwind(one) {
            Ok(Ok(())) => {}
            Ok(Err(input)) => {
                show_command(kind, request.seed, case, "differs", left, right);
                show(*input, left, right);
                return false;
            }
            Err(_) => {
                show_command(kind, request.seed, case, "panics", left, right);
                return false;
            }
        }
    }
    let seconds = started.elapsed().as_secs_f64();
    println!(
        "{:<10} {} and {} agree on {count} answers (seed {}): {seconds:.1} s, {:.0} a second",
        kind.name(),
        left.name(),
        right.name(),
        request.seed,
        count as f64 / seconds
    );
    true
}

/// Where it happened, and the command that makes it again.
fn show_command(
    kind: Kind,
    seed: u64,
    case: u64,
    what: &str,
    left: &dyn Engine,
    right: &dyn Engine,
) {
    println!("{} {what} at case {case} of seed {seed}", kind.name());
    println!("--- to see it again, from the folder rust:");
    println!(
        "cargo run --release -q --bin compare -- --kind {} --seed {seed} --case {case} \
         --left {} --right {}",
        kind.name(),
        left.name(),
        right.name()
    );
}

/// The difference as it was found, and on the smallest input that still shows it.
fn show(input: Input, left: &mut dyn Engine, right: &mut dyn Engine) {
    println!("--- input as found\n{}", shown_input(&input));
    let input = shrunk(input, left, right);
    println!("--- input made smaller\n{}", shown_input(&input));
    println!("--- {} answers\n{}", left.name(), shown_answer(&input, left));
    println!("--- {} answers\n{}", right.name(), shown_answer(&input, right));
}
