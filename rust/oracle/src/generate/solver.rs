//! Solver inputs: everyday, extreme, tied, made for many passes, and bad.

use super::reals;
use super::rng::Rng;
use crate::value::{Reals, WIDTH};

#[derive(Clone)]
pub struct SolverInput {
    pub total: f64,
    pub shares: Reals,
    pub minima: Reals,
}

pub fn solver_input(rng: &mut Rng) -> SolverInput {
    let count = if rng.once_in(12) { WIDTH } else { rng.index(WIDTH + 1) };
    let mut input = match rng.below(8) {
        0 | 1 => many_passes(rng, count),
        2 => tied(rng, count),
        3 => minima_about_total(rng, count),
        4 => extreme(rng, count),
        _ => everyday(rng, count),
    };
    if rng.once_in(10) {
        spoil(rng, &mut input);
    }
    input
}

fn of(total: f64, shares: &[f64], minima: &[f64]) -> SolverInput {
    SolverInput { total, shares: Reals::of(shares), minima: Reals::of(minima) }
}

fn shares(rng: &mut Rng, count: usize) -> Vec<f64> {
    (0..count).map(|_| reals::good_share(rng)).collect()
}

fn everyday(rng: &mut Rng, count: usize) -> SolverInput {
    let shares = shares(rng, count);
    let minima: Vec<f64> = (0..count).map(|_| reals::good_minimum(rng)).collect();
    of(reals::total(rng), &shares, &minima)
}

fn extreme(rng: &mut Rng, count: usize) -> SolverInput {
    let shares: Vec<f64> = (0..count).map(|_| reals::extreme(rng)).collect();
    let minima: Vec<f64> =
        (0..count).map(|_| if rng.once_in(2) { 0.0 } else { reals::extreme(rng) }).collect();
    of(reals::extreme(rng), &shares, &minima)
}

/// Each minimum lies between what its child has before and after the child
/// before it is held, so that a pass holds one child each. Shares that fall by
/// a steady ratio keep these gaps wide enough for 16 passes.
fn many_passes(rng: &mut Rng, count: usize) -> SolverInput {
    let total = rng.between(1, 4000) as f64;
    let ratio = rng.unit() * 0.5 + 0.45;
    let shares: Vec<f64> =
        (0..count).map(|at| ratio.powi(at as i32) * (1.0 + rng.unit() * 0.1)).collect();
    let mut rest = total;
    let mut flexible: f64 = shares.iter().sum();
    let mut gap = rng.unit();
    let mut minima = Vec::new();
    for share in &shares {
        let has = rest * (share / flexible);
        let short_by = has * gap * (0.4 + rng.unit() * 0.5);
        minima.push((has + short_by).max(0.0));
        rest -= has + short_by;
        flexible -= share;
        gap = (short_by / (rest + short_by)).clamp(0.0, 1.0);
    }
    if let Some(last) = minima.last_mut() {
        *last = 0.0;
    }
    shuffle_pairs(rng, total, shares, minima)
}

fn shuffle_pairs(
    rng: &mut Rng,
    total: f64,
    mut shares: Vec<f64>,
    mut minima: Vec<f64>,
) -> SolverInput {
    for at in (1..shares.len()).rev() {
        let other = rng.index(at + 1);
        shares.swap(at, other);
        minima.swap(at, other);
    }
    of(total, &shares, &minima)
}

/// Minima that equal, or miss by one step, what the shares give.
fn tied(rng: &mut Rng, count: usize) -> SolverInput {
    let total = reals::total(rng);
    let shares = shares(rng, count);
    let sum: f64 = shares.iter().sum();
    let minima: Vec<f64> = shares
        .iter()
        .map(|share| {
            let exact = total.abs() * (share / sum);
            match rng.below(6) {
                0 => 0.0,
                1 => exact.next_up().min(f64::MAX),
                2 => {
                    if exact > 0.0 {
                        exact.next_down()
                    } else {
                        0.0
                    }
                }
                3 => exact / 2.0,
                _ => exact,
            }
        })
        .collect();
    of(total, &shares, &minima)
}

/// The minima's sum is the total, or a step away, or past it.
fn minima_about_total(rng: &mut Rng, count: usize) -> SolverInput {
    let shares = shares(rng, count);
    let minima: Vec<f64> = (0..count).map(|_| rng.between(0, 60) as f64 / 4.0).collect();
    let sum: f64 = minima.iter().sum::<f64>().abs();
    let total = match rng.below(5) {
        0 => sum,
        1 => sum.next_up(),
        2 => {
            if sum > 0.0 {
                sum.next_down()
            } else {
                0.0
            }
        }
        3 => sum / 2.0,
        _ => sum * 1.01,
    };
    of(total, &shares, &minima)
}

fn spoil(rng: &mut Rng, input: &mut SolverInput) {
    match rng.below(6) {
        0 => input.total = reals::bad_total(rng),
        1 => input.shares.at[rng.index(WIDTH)] = reals::bad_share(rng),
        2 => input.minima.at[rng.index(WIDTH)] = reals::bad_minimum(rng),
        3 => input.shares.len = length(rng),
        4 => input.minima.len = length(rng),
        _ => {
            input.shares.len = rng.pick(&[17, 18, 1 << 32, u64::MAX]);
            input.minima.len = input.shares.len;
        }
    }
}

fn length(rng: &mut Rng) -> u64 {
    if rng.once_in(3) { rng.pick(&[17, 18, 255, 1 << 32, u64::MAX]) } else { rng.below(17) }
}
