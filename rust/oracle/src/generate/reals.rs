//! Numbers: everyday ones, extreme ones and bad ones.

use super::rng::Rng;

const TINY: f64 = f64::from_bits(1);
const SUBNORMALS: [f64; 4] = [
    TINY,
    f64::from_bits(2),
    f64::from_bits(0x0008_0000_0000_0001),
    f64::from_bits(0x000f_ffff_ffff_ffff),
];
const HUGE: [f64; 5] = [1e308, f64::MAX, 8.9e307, 1e300, 1e200];
const SMALL: [f64; 5] = [f64::MIN_POSITIVE, 1e-300, 1e-200, 1e-160, 5e-309];
const BAD_SHARES: [f64; 7] = [0.0, -0.0, -1.0, f64::NAN, f64::INFINITY, f64::NEG_INFINITY, -TINY];
const BAD_MINIMA: [f64; 5] = [-1.0, f64::NAN, f64::INFINITY, f64::NEG_INFINITY, -TINY];

/// A finite number above zero, of any size.
pub fn extreme(rng: &mut Rng) -> f64 {
    match rng.below(5) {
        0 => rng.pick(&SUBNORMALS),
        1 => rng.pick(&HUGE),
        2 => rng.pick(&SMALL),
        3 => 2.0_f64.powi(rng.between(0, 80) as i32 - 40),
        _ => positive_bits(rng),
    }
}

/// Any finite number above zero, every exponent alike.
fn positive_bits(rng: &mut Rng) -> f64 {
    f64::from_bits(rng.between(1, f64::MAX.to_bits()))
}

fn everyday(rng: &mut Rng) -> f64 {
    match rng.below(6) {
        0 | 1 => 1.0,
        2 => rng.between(1, 8) as f64,
        3 => 0.01,
        4 => rng.between(1, 400) as f64 / 8.0,
        _ => rng.unit() * 4.0 + 0.001,
    }
}

pub fn good_share(rng: &mut Rng) -> f64 {
    if rng.once_in(12) { extreme(rng) } else { everyday(rng) }
}

pub fn bad_share(rng: &mut Rng) -> f64 {
    rng.pick(&BAD_SHARES)
}

/// Zero of either sign, everyday or extreme.
pub fn good_minimum(rng: &mut Rng) -> f64 {
    match rng.below(8) {
        0..=2 => 0.0,
        3 => -0.0,
        4 => extreme(rng),
        5 => rng.between(1, 64) as f64,
        _ => rng.unit() * 100.0,
    }
}

pub fn bad_minimum(rng: &mut Rng) -> f64 {
    rng.pick(&BAD_MINIMA)
}

pub fn total(rng: &mut Rng) -> f64 {
    match rng.below(10) {
        0 => rng.pick(&[0.0, -0.0]),
        1 => extreme(rng),
        2..=4 => rng.between(1, 2000) as f64,
        5 => rng.between(1, 100) as f64 / 3.0,
        _ => rng.unit() * 2000.0,
    }
}

pub fn bad_total(rng: &mut Rng) -> f64 {
    rng.pick(&BAD_MINIMA)
}

/// Strictly between 0 and 1, down to the ends.
pub fn good_fraction(rng: &mut Rng) -> f64 {
    match rng.below(8) {
        0 => rng.pick(&[TINY, f64::MIN_POSITIVE, 1e-300, 0.005, 0.01, 0.0099]),
        1 => rng.pick(&[1.0 - f64::EPSILON / 2.0, 0.995, 0.99, 0.9901]),
        2..=4 => rng.pick(&[0.5, 0.25, 0.75]),
        _ => rng.unit() * 0.9 + 0.05,
    }
}

pub fn bad_fraction(rng: &mut Rng) -> f64 {
    rng.pick(&[
        0.0,
        -0.0,
        1.0,
        1.0 + f64::EPSILON,
        2.0,
        -0.5,
        -TINY,
        f64::NAN,
        f64::INFINITY,
        f64::NEG_INFINITY,
    ])
}
