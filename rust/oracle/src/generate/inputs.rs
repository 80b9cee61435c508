//! Layout inputs: everyday, at every limit, and past it.

use super::rng::Rng;
use crate::value::{LayoutInput, Rect};

const LIMIT: f64 = 1_048_576.0;

pub fn layout_input(rng: &mut Rng) -> LayoutInput {
    let (x0, x1) = span(rng);
    let (y0, y1) = span(rng);
    let mut input = LayoutInput {
        outer: Rect { x0, y0, x1, y1 },
        handle: size(rng),
        bar: size(rng),
        min_width: size(rng),
        min_height: size(rng),
    };
    if rng.once_in(8) {
        spoil(rng, &mut input);
    }
    input
}

fn span(rng: &mut Rng) -> (f64, f64) {
    match rng.below(10) {
        0 => {
            let at = coordinate(rng);
            (at, at)
        }
        1 => (rng.pick(&[-LIMIT, -0.0, 0.0]), LIMIT),
        2 => (0.0, rng.between(1, 12) as f64),
        3..=5 => (0.0, rng.between(100, 2000) as f64),
        _ => {
            let (a, b) = (coordinate(rng), coordinate(rng));
            if a <= b { (a, b) } else { (b, a) }
        }
    }
}

fn coordinate(rng: &mut Rng) -> f64 {
    match rng.below(9) {
        0 => rng.pick(&[0.0, -0.0]),
        1 => rng.pick(&[LIMIT, -LIMIT, LIMIT.next_down(), -LIMIT.next_down()]),
        2 => rng.pick(&[f64::from_bits(1), -f64::from_bits(1), 1e-300, -1e-310]),
        3..=5 => rng.between(0, 4000) as f64 - 2000.0,
        6 => (rng.unit() - 0.5) * 2.0 * LIMIT,
        _ => (rng.unit() - 0.5) * 4000.0,
    }
}

fn size(rng: &mut Rng) -> f64 {
    match rng.below(12) {
        0..=2 => 0.0,
        3 => -0.0,
        4 => rng.pick(&[LIMIT, LIMIT.next_down(), f64::from_bits(1), 1e-300]),
        5..=8 => rng.between(1, 40) as f64,
        9 => rng.unit() * LIMIT,
        _ => rng.unit() * 60.0,
    }
}

fn spoil(rng: &mut Rng, input: &mut LayoutInput) {
    if rng.once_in(4) {
        let outer = &mut input.outer;
        match rng.below(2) {
            0 => (outer.x0, outer.x1) = (outer.x1.next_up(), outer.x0),
            _ => (outer.y0, outer.y1) = (outer.y1.next_up(), outer.y0),
        }
        return;
    }
    let bad = rng.pick(&[
        LIMIT.next_up(),
        -LIMIT.next_up(),
        -f64::from_bits(1),
        -1.0,
        f64::NAN,
        f64::INFINITY,
        f64::NEG_INFINITY,
        1e308,
    ]);
    let place = match rng.below(8) {
        0 => &mut input.outer.x0,
        1 => &mut input.outer.y0,
        2 => &mut input.outer.x1,
        3 => &mut input.outer.y1,
        4 => &mut input.handle,
        5 => &mut input.bar,
        6 => &mut input.min_width,
        _ => &mut input.min_height,
    };
    *place = bad;
}
