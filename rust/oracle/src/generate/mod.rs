//! Generators of inputs, each reproducible from a seed, a kind and a number.

pub mod hand;
pub mod hostile;
pub mod inputs;
pub mod operations;
pub mod reals;
pub mod rng;
pub mod solver;
pub mod tables;
pub mod trees;
