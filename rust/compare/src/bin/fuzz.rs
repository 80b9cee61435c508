//! Random bytes and random numbers through every call of the library.
//!
//! fuzz [seconds] [seed], by default 60 seconds from seed 1. Every answer is
//! compared with the model's; a failure names its case, and
//!
//! fuzz case N SEED
//!
//! runs that one again.

use std::process::ExitCode;
use std::time::{Duration, Instant};

use compare::fuzz::Fuzz;

fn main() -> ExitCode {
    let words: Vec<String> = std::env::args().skip(1).collect();
    let number =
        |at: usize, usual: u64| words.get(at).map_or(usual, |word| word.parse().expect("a number"));
    if words.first().is_some_and(|word| word == "case") {
        Fuzz::new(number(2, 1)).case(number(1, 0));
        return ExitCode::SUCCESS;
    }
    let (end, seed) = (Instant::now() + Duration::from_secs(number(0, 60)), number(1, 1));
    let mut fuzz = Fuzz::new(seed);
    let mut case = 0;
    while Instant::now() < end {
        let one = std::panic::AssertUnwindSafe(|| fuzz.case(case));
        if std::panic::catch_unwind(one).is_err() {
            println!("case {case} of seed {seed} fails; again: fuzz case {case} {seed}");
            return ExitCode::FAILURE;
        }
        case += 1;
    }
    println!("{case} cases of seed {seed}, no failure");
    for (what, times) in fuzz.counts() {
        println!("  {what:<36} {times}");
    }
    ExitCode::SUCCESS
}
