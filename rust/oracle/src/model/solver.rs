//! Lengths of a split's children, and how many passes it took to find them.

use super::numbers::{good_minimum, good_share, larger, plus_zero};
use crate::value::{Reals, Refusal, SolveAnswer};

/// The public call: refuses with 5 what is out of range.
pub fn solve(total: f64, shares: &Reals, minima: &Reals) -> SolveAnswer {
    if !good_input(total, shares, minima) {
        return SolveAnswer { refusal: Some(Refusal::BAD_INPUT), lengths: Vec::new(), passes: 0 };
    }
    let minima: Vec<f64> = minima.entries().iter().map(|&minimum| plus_zero(minimum)).collect();
    let (lengths, passes) = solve_lengths(plus_zero(total), shares.entries(), &minima);
    SolveAnswer { refusal: None, lengths, passes }
}

fn good_input(total: f64, shares: &Reals, minima: &Reals) -> bool {
    !shares.too_long()
        && shares.len == minima.len
        && total.is_finite()
        && total >= 0.0
        && shares.entries().iter().all(|&share| good_share(share))
        && minima.entries().iter().all(|&minimum| good_minimum(minimum))
}

/// As `solve_lengths_with_min`, on good input without minus zeros.
pub fn solve_lengths(total: f64, shares: &[f64], minima: &[f64]) -> (Vec<f64>, u64) {
    solve_from(0.0, total, shares, minima)
}

/// The same with the number from which the sums start, so that a test can show
/// that a start from minus zero is not seen in any answer.
pub fn solve_from(start: f64, total: f64, shares: &[f64], minima: &[f64]) -> (Vec<f64>, u64) {
    if total == 0.0 {
        return (vec![0.0; shares.len()], 0);
    }
    let needed = sum(start, minima);
    if needed >= total {
        return (divided(total, minima, needed), 0);
    }
    let lengths = divided(total, shares, sum(start, shares));
    if needed == 0.0 {
        return (lengths, 0);
    }
    hold_minima(total, shares, minima, lengths)
}

/// Left to right.
fn sum(start: f64, numbers: &[f64]) -> f64 {
    numbers.iter().fold(start, |sum, number| sum + number)
}

/// The whole shared out by weight.
fn divided(whole: f64, weights: &[f64], weight_sum: f64) -> Vec<f64> {
    weights.iter().map(|weight| whole * (weight / weight_sum)).collect()
}

/// Passes: each holds the children that are below their minimum and shares the
/// rest out among the others, until a pass holds no new one or holds the last.
fn hold_minima(
    total: f64,
    shares: &[f64],
    minima: &[f64],
    mut lengths: Vec<f64>,
) -> (Vec<f64>, u64) {
    let mut held = vec![false; shares.len()];
    let mut passes = 0;
    loop {
        passes += 1;
        let changed = hold_short_ones(minima, &mut lengths, &mut held);
        let flexible = sum_where(shares, &held, false);
        if !changed || flexible == 0.0 {
            return (lengths, passes);
        }
        let rest = larger(total - sum_where(&lengths, &held, true), 0.0);
        for child in (0..shares.len()).filter(|&child| !held[child]) {
            lengths[child] = rest * (shares[child] / flexible);
        }
    }
}

fn hold_short_ones(minima: &[f64], lengths: &mut [f64], held: &mut [bool]) -> bool {
    let mut changed = false;
    for child in 0..minima.len() {
        if !held[child] && lengths[child] < minima[child] {
            lengths[child] = minima[child];
            held[child] = true;
            changed = true;
        }
    }
    changed
}

fn sum_where(numbers: &[f64], held: &[bool], wanted: bool) -> f64 {
    let chosen = numbers.iter().zip(held).filter(|&(_, &is)| is == wanted);
    chosen.fold(0.0, |sum, (number, _)| sum + number)
}
