//! The lengths of a split's children.

use core::mem::MaybeUninit;

use crate::TileError;
use crate::arena::WIDTH;
use crate::boundary;
use crate::error::answer;
use crate::model::index_of;

/// How a length is divided.
#[derive(Clone, Copy, Debug, PartialEq)]
pub struct Solution {
    at: [f64; WIDTH],
    count: usize,
    passes: u64,
}

impl Solution {
    /// One length for each child.
    #[must_use]
    pub fn lengths(&self) -> &[f64] {
        &self.at[..self.count]
    }

    /// How often the solver went over the children to hold some at their
    /// minimum.
    #[must_use]
    pub const fn passes(&self) -> u64 {
        self.passes
    }
}

/// Divides `total` among 0 to 16 children by their shares, none below its
/// minimum where that can be.
///
/// # Errors
///
/// [`TileError::BadInput`] for more than 16 children, unequal counts or numbers
/// out of range.
pub fn solve(total: f64, shares: &[f64], minima: &[f64]) -> Result<Solution, TileError> {
    let (mut rooms, mut at) = ([MaybeUninit::uninit(); 2], [0.0; WIDTH]);
    let [parts, least] = &mut rooms;
    let mut out = [0; 4];
    let parts = (row(shares, parts), shares.len() as u64);
    let least = (row(minima, least), minima.len() as u64);
    let number = boundary::solve(total, parts, least, &mut at, &mut out);
    answer(number, &out)?;
    Ok(Solution { at, count: index_of(out[2]).min(WIDTH), passes: out[3] })
}

/// The first 16, where they stand or with zeros after them in `room`; the count
/// tells the library that there are more.
fn row<'a>(numbers: &'a [f64], room: &'a mut MaybeUninit<[f64; WIDTH]>) -> &'a [f64; WIDTH] {
    numbers.first_chunk().unwrap_or_else(|| {
        let room = room.write([0.0; WIDTH]);
        room[..numbers.len()].copy_from_slice(numbers);
        room
    })
}
