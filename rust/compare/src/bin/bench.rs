//! How long the original and the library take for the same calls: one run, the
//! same inputs, medians. Prints a table.
//!
//! bench [repetitions], by default 2,001 for each call.

#[cfg(not(original))]
fn main() {
    eprintln!("the original is not at hand (UNDERSTORY_SRC): there is nothing to measure against");
    std::process::exit(1);
}

#[cfg(original)]
fn main() {
    let repetitions = std::env::args().nth(1).map_or(2001, |word| word.parse().expect("a number"));
    compare::bench::run(repetitions);
}
