//! A few hundred cases of each kind, and a few thousand of the fuzzer: what the
//! commands run by the million.

use compare::fuzz::Fuzz;
use compare::host::Host;
use compare::library::Library;
use oracle::check::{Input, KINDS, compare, differs, shown_input};
use oracle::engine::Engine;
use oracle::generate::hand;
use oracle::model::Model;
use oracle::the_original;

const SEED: u64 = 9;
const CASES: u64 = 300;

fn assert_agree(left: &mut dyn Engine, right: &mut dyn Engine) {
    for kind in KINDS {
        for case in 0..CASES {
            if let Err(input) = compare(kind, SEED, case, left, right) {
                panic!("{} case {case}:\n{}", kind.name(), shown_input(&input));
            }
        }
    }
    for tree in hand::arenas() {
        assert!(!differs(&Input::Repair(tree), left, right), "an arena made by hand");
    }
}

#[test]
fn the_library_and_the_model() {
    assert_agree(&mut Model, &mut Library::default());
}

#[test]
fn a_host_and_the_model() {
    assert_agree(&mut Model, &mut Host::default());
}

#[test]
fn the_library_and_the_original() {
    match the_original() {
        Some(mut original) => assert_agree(original.as_mut(), &mut Library::default()),
        None => println!("the original is not at hand"),
    }
}

#[test]
fn fuzzed() {
    let mut fuzz = Fuzz::new(SEED);
    for case in 0..3000 {
        fuzz.case(case);
    }
}
