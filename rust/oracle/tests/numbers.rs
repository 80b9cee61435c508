//! What the readings of document 01 say of the solver and of frames.
#![cfg(original)]

mod common;

use common::*;
use oracle::check::{Kind as Case, layout_case};
use oracle::engine::Engine;
use oracle::generate::rng::Rng;
use oracle::generate::solver::solver_input;
use oracle::model::{Model, solve_from};
use oracle::original::Original;
use oracle::value::{LayoutInput, Reals, Rect, Refusal, Slot};

/// Rust's own sum of no numbers shows where it starts.
#[test]
fn rusts_sum_starts_from_minus_zero() {
    let nothing: [f64; 0] = [];
    let sum: f64 = nothing.iter().copied().sum();
    assert_eq!(sum.to_bits(), (-0.0_f64).to_bits(), "a start from plus zero: see docs");
}

/// The solver sums no empty list, and a sum that is minus zero (all minima
/// minus zero) is only compared. So both starts give the same bits.
#[test]
fn the_start_of_a_sum_is_not_seen() {
    for case in 0..300_000 {
        let input = solver_input(&mut Case::Solve.rng(5, case));
        if Model.solve(input.total, &input.shares, &input.minima).refusal.is_some() {
            continue;
        }
        // Minus zeros stay in here, where the two starts could part.
        let (shares, minima) = (input.shares.entries(), input.minima.entries());
        let plus = solve_from(0.0, input.total, shares, minima);
        let minus = solve_from(-0.0, input.total, shares, minima);
        assert_eq!(plus.1, minus.1);
        assert!(plus.0.iter().zip(&minus.0).all(|(a, b)| a.to_bits() == b.to_bits()));
    }
}

#[test]
fn lengths_lie_between_zero_and_the_total_and_minima_are_held() {
    let mut most = 0;
    for case in 0..300_000 {
        let input = solver_input(&mut Case::Solve.rng(6, case));
        let answer = Original.solve(input.total, &input.shares, &input.minima);
        if answer.refusal.is_some() {
            continue;
        }
        let minima = input.minima.entries();
        assert!(answer.passes <= input.shares.len);
        most = most.max(answer.passes);
        assert!(answer.lengths.iter().all(|length| (0.0..=input.total).contains(length)));
        let needed = minima.iter().fold(0.0, |sum, minimum| sum + minimum);
        if needed < input.total {
            assert!(answer.lengths.iter().zip(minima).all(|(length, minimum)| length >= minimum));
        }
    }
    assert_eq!(most, 16, "the bound on passes is tight");
}

#[test]
fn sums_that_overflow_give_nothing() {
    on_both(|engine| {
        let answer = engine.solve(100.0, &Reals::of(&[1e308, 1e308]), &Reals::of(&[0.0, 0.0]));
        assert_eq!((answer.refusal, answer.lengths, answer.passes), (None, vec![0.0, 0.0], 0));
    });
}

#[test]
fn bad_solver_input() {
    let good = Reals::of(&[1.0, 1.0]);
    let refused = |total: f64, shares: &Reals, minima: &Reals| {
        on_both(|engine| {
            let answer = engine.solve(total, shares, minima);
            assert_eq!(answer.refusal, Some(Refusal::BAD_INPUT));
            assert!(answer.lengths.is_empty() && answer.passes == 0);
        });
    };
    refused(f64::NAN, &good, &good);
    refused(f64::INFINITY, &good, &good);
    refused(-1.0, &good, &good);
    refused(1.0, &good, &Reals::of(&[0.0]));
    refused(1.0, &Reals::of(&[1.0, 0.0]), &good);
    refused(1.0, &Reals::of(&[1.0, -0.0]), &good);
    refused(1.0, &good, &Reals::of(&[0.0, f64::NAN]));
    refused(1.0, &good, &Reals::of(&[0.0, -1.0]));
    let long = Reals { at: [1.0; 16], len: 17 };
    refused(1.0, &long, &long);
    on_both(|engine| {
        let answer = engine.solve(-0.0, &Reals::EMPTY, &Reals::EMPTY);
        assert_eq!((answer.refusal, answer.lengths.len()), (None, 0));
        let zeros = engine.solve(-0.0, &good, &Reals::of(&[-0.0, 1.0]));
        assert!(zeros.lengths.iter().all(|length| length.to_bits() == 0));
    });
}

fn input(width: f64, height: f64) -> LayoutInput {
    let outer = Rect { x0: 0.0, y0: 0.0, x1: width, y1: height };
    LayoutInput { outer, handle: 0.0, bar: 0.0, min_width: 0.0, min_height: 0.0 }
}

#[test]
fn rounding_can_pass_the_parents_edge() {
    on_both(|engine| {
        let frame = engine.layout(&row(&[1.0; 5]), &input(3.0, 1.0)).frame;
        assert_eq!(frame.split_children[4].rect.x1, 3.0000000000000004);
    });
}

#[test]
fn handles_run_past_a_split_with_no_length_left() {
    on_both(|engine| {
        let mut narrow = input(5.0, 1.0);
        narrow.handle = 4.0;
        let frame = engine.layout(&row(&[1.0; 3]), &narrow).frame;
        let ends: Vec<f64> = frame.split_handles.iter().map(|handle| handle.rect.x1).collect();
        assert_eq!(ends, [4.0, 8.0]);
    });
}

#[test]
fn layout_input_at_and_past_its_limits() {
    const LIMIT: f64 = 1_048_576.0;
    let number = |input: &LayoutInput| {
        let [a, b] =
            [Original.layout(&row(&[1.0; 2]), input), Model.layout(&row(&[1.0; 2]), input)];
        assert_eq!(a.refusal, b.refusal);
        a.refusal.map_or(0, |refusal| refusal.number)
    };
    let set: [fn(&mut LayoutInput, f64); 6] = [
        |input, to| input.outer.x1 = to,
        |input, to| input.outer.y1 = to,
        |input, to| input.handle = to,
        |input, to| input.bar = to,
        |input, to| input.min_width = to,
        |input, to| input.min_height = to,
    ];
    for set in set {
        let with = |to: f64| {
            let mut input = input(1.0, 1.0);
            set(&mut input, to);
            number(&input)
        };
        assert_eq!(with(LIMIT), 0);
        assert_eq!(with(-0.0), 0);
        assert_eq!(with(LIMIT.next_up()), 5);
        assert_eq!(with(f64::NAN), 5);
        assert_eq!(with(f64::INFINITY), 5);
        assert_eq!(with(-f64::from_bits(1)), 5, "below zero, or crossed");
    }
    let mut low = input(1.0, 1.0);
    low.outer.x0 = -LIMIT;
    assert_eq!(number(&low), 0);
    low.outer.y0 = -LIMIT.next_up();
    assert_eq!(number(&low), 5);
    assert_eq!(Model.layout(&row(&[0.0; 2]), &low).refusal, Some(Refusal::NOT_SOUND));
}

#[test]
fn frames_stay_finite_and_their_edges_in_order() {
    for case in 0..20_000 {
        let (tree, input) = layout_case(&mut Case::Layout.rng(7, case));
        let frame = Original.layout(&tree, &input).frame;
        let ordered = |rect: &Rect| rect.x0 <= rect.x1 && rect.y0 <= rect.y1 && finite(rect);
        assert!(frame.split_children.iter().all(|child| ordered(&child.rect)), "case {case}");
        assert!(frame.split_handles.iter().all(|handle| ordered(&handle.rect)), "case {case}");
        assert!(frame.tab_bars.iter().all(|bar| ordered(&bar.rect)), "case {case}");
        assert!(frame.tabs.iter().all(|tab| ordered(&tab.rect)), "case {case}");
        assert!(frame.panes.iter().all(|pane| finite(&pane.rect)), "case {case}");
    }
}

fn finite(rect: &Rect) -> bool {
    [rect.x0, rect.y0, rect.x1, rect.y1].iter().all(|at| at.is_finite())
}

/// The edge of a tab pane may pass its opposite edge: the height, 1 + 1.5 × 2^-53,
/// is rounded up, and a bar as high as that ends past the pane's lower edge.
#[test]
fn rounding_can_cross_a_tab_panes_edges() {
    on_both(|engine| {
        let mut thick = input(1.0, 1.5 * 2.0_f64.powi(-53));
        thick.outer.y0 = -1.0;
        thick.bar = 2.0;
        let frame = engine.layout(&tree(&[Slot::tabs(&[1], 0, Top)]), &thick).frame;
        let pane = frame.panes[0].rect;
        assert_eq!((pane.y0, pane.y1), (2.0_f64.powi(-52), 1.5 * 2.0_f64.powi(-53)));
        assert_eq!(frame.tab_bars[0].rect.y1, pane.y0, "the bar passes its parent's edge too");
    });
}

/// W-209's figure: with total and shares from 2^-20 to 2^20 and minima up to
/// 2^20, less than the total divided by 2^40 is lost. The sum is taken with the
/// rounding errors kept, so that it is good far past what is asked.
#[test]
fn hardly_any_length_is_lost() {
    let mut rng = Case::Solve.rng(8, 0);
    let mut worst = 0.0_f64;
    for _ in 0..300_000 {
        let count = rng.between(1, 16) as usize;
        let spread = |rng: &mut Rng| 2.0_f64.powf(rng.unit() * 40.0 - 20.0);
        let shares: Vec<f64> = (0..count).map(|_| spread(&mut rng)).collect();
        let minima: Vec<f64> =
            (0..count).map(|_| if rng.once_in(2) { 0.0 } else { spread(&mut rng) }).collect();
        let total = spread(&mut rng);
        let lengths = Original.solve(total, &Reals::of(&shares), &Reals::of(&minima)).lengths;
        worst = worst.max(lost(total, &lengths).abs() / total);
    }
    println!("worst loss: {:.1} units of 2^-53 of the total", worst * 2.0_f64.powi(53));
    assert!(worst < 2.0_f64.powi(-40));
}

/// The total less the lengths, each rounding error added back at the end.
fn lost(total: f64, lengths: &[f64]) -> f64 {
    let (mut rest, mut errors) = (total, 0.0);
    for length in lengths {
        let next = rest - length;
        let back = next - rest;
        errors += (rest - (next - back)) - (length + back);
        rest = next;
    }
    rest + errors
}
