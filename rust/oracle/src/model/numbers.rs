//! Tests on numbers, and the two lists of a split put in order.

/// Minus zero is read as zero; any other number stays as it is.
pub fn plus_zero(number: f64) -> f64 {
    if number == 0.0 { 0.0 } else { number }
}

pub fn good_share(share: f64) -> bool {
    share.is_finite() && share > 0.0
}

pub fn good_minimum(minimum: f64) -> bool {
    minimum.is_finite() && minimum >= 0.0
}

/// The one test of a split fraction: strictly between 0 and 1.
pub fn good_fraction(fraction: f64) -> bool {
    fraction > 0.0 && fraction < 1.0
}

/// The larger of two numbers, neither of them NaN.
pub fn larger(a: f64, b: f64) -> f64 {
    if a < b { b } else { a }
}

/// The smaller of two numbers, neither of them NaN.
pub fn smaller(a: f64, b: f64) -> f64 {
    if b < a { b } else { a }
}

/// Shares of the wrong number become all 1.0; a bad one becomes 1.0.
pub fn repaired_shares(count: usize, shares: &[f64]) -> Vec<f64> {
    if shares.len() != count {
        return vec![1.0; count];
    }
    shares.iter().map(|&share| if good_share(share) { share } else { 1.0 }).collect()
}

/// One minimum for each child: missing or bad is zero, extras are dropped.
pub fn aligned_minima(count: usize, minima: &[f64]) -> Vec<f64> {
    let mut aligned = vec![0.0; count];
    for (place, &minimum) in aligned.iter_mut().zip(minima) {
        if good_minimum(minimum) {
            *place = plus_zero(minimum);
        }
    }
    aligned
}

/// Trailing zeros cut.
pub fn compact_minima(minima: &[f64]) -> &[f64] {
    let kept = minima.iter().rposition(|&minimum| minimum != 0.0).map_or(0, |last| last + 1);
    &minima[..kept]
}
