//! The original's util.rs once more, unchanged, with its solver's passes counted.
//!
//! The solver keeps a list `vec![false; count]` of the children held at their
//! minimum. The file takes `vec!` from a crate named `alloc`; here that name is
//! a module of our own, whose `vec![false; n]` counts its readings and whose
//! every other `vec!` is the usual one. A pass reads the list once for each
//! child, and once more for each child if it shares out the rest, which every
//! pass does but the last. So the readings are children × (2 × passes − 1).

use core::cell::Cell;
use core::ops::{Index, IndexMut};

use crate::original::shims::Finite;

mod alloc {
    pub mod vec {
        pub use ::alloc::vec::Vec;
    }

    macro_rules! counting_vec {
        (false; $count:expr) => {
            CountingFlags::new($count)
        };
        ($value:expr; $count:expr) => {
            ::alloc::vec![$value; $count]
        };
    }

    pub(crate) use counting_vec as vec;
}

include!(concat!(env!("UNDERSTORY_SRC"), "/util.rs"));

thread_local! {
    static READINGS: Cell<u64> = const { Cell::new(0) };
}

struct CountingFlags(Vec<bool>);

impl CountingFlags {
    fn new(count: usize) -> Self {
        Self(::alloc::vec![false; count])
    }
}

impl Index<usize> for CountingFlags {
    type Output = bool;

    fn index(&self, place: usize) -> &bool {
        READINGS.with(|readings| readings.set(readings.get() + 1));
        &self.0[place]
    }
}

impl IndexMut<usize> for CountingFlags {
    fn index_mut(&mut self, place: usize) -> &mut bool {
        &mut self.0[place]
    }
}

/// The original's lengths and how often its outer loop ran.
pub(crate) fn solve_counted(total: f64, shares: &[f64], minima: &[f64]) -> (Vec<f64>, u64) {
    READINGS.with(|readings| readings.set(0));
    let lengths = solve_lengths_with_min(total, shares, minima);
    let readings = READINGS.with(Cell::get);
    (lengths, passes(readings, shares.len() as u64))
}

fn passes(readings: u64, count: u64) -> u64 {
    if readings == 0 {
        return 0;
    }
    assert_eq!(readings % count, 0, "a pass reads each child's flag");
    let rounds = readings / count;
    assert_eq!(rounds % 2, 1, "only the last pass shares nothing out");
    rounds.div_ceil(2)
}
