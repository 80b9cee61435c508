//! Spec bytes to the original's recursive TileSpec.
//!
//! Written apart from the model's reader: the sections are cut by their counts
//! first, and the rows are put together from the last to the first, a split
//! taking as many finished specs from the stack as it has children.

use super::convert::{axis_there, bar_there};
use crate::value::{Axis, Refusal, TabBarPlacement};
use crate::{PaneId, SplitConstraints, TileSpec};

const AXES: [Axis; 2] = [Axis::Horizontal, Axis::Vertical];
const BARS: [TabBarPlacement; 5] = [
    TabBarPlacement::Hidden,
    TabBarPlacement::Top,
    TabBarPlacement::Bottom,
    TabBarPlacement::Left,
    TabBarPlacement::Right,
];

/// The spec, or document 01's own refusal: 1, then 2, then 3.
pub fn spec_of(bytes: &[u8]) -> Result<TileSpec, Refusal> {
    let sections = sections(bytes).ok_or(Refusal::BAD_TABLE)?;
    let rows: Vec<[u8; 8]> = sections[0].as_chunks().0.to_vec();
    if !rows_are_good(&rows, &sections) {
        return Err(Refusal::BAD_TABLE);
    }
    if rows.len() > 64 {
        return Err(Refusal::ARENA_FULL);
    }
    if rows.iter().any(|row| count(row) > 16) {
        return Err(Refusal::TOO_WIDE);
    }
    Ok(put_together(&rows, &sections))
}

/// The entries of the four sections, which must end where the bytes end.
fn sections(bytes: &[u8]) -> Option<[&[u8]; 4]> {
    let mut rest = bytes;
    let mut sections = [&bytes[..0]; 4];
    for section in &mut sections {
        let (length, after) = rest.split_at_checked(4)?;
        let entries = u32::from_le_bytes(length.try_into().ok()?) as usize;
        (*section, rest) = after.split_at_checked(entries.checked_mul(8)?)?;
    }
    rest.is_empty().then_some(sections)
}

fn count(row: &[u8; 8]) -> usize {
    usize::from(row[2]) | usize::from(row[3]) << 8
}

fn extra(row: &[u8; 8]) -> usize {
    usize::from(row[4]) | usize::from(row[5]) << 8
}

fn minima(row: &[u8; 8]) -> usize {
    usize::from(row[6]) | usize::from(row[7]) << 8
}

/// How many entries of panes, shares and minima a row uses.
fn uses(row: &[u8; 8]) -> [usize; 3] {
    match row[0] {
        2 => [0, extra(row), minima(row)],
        _ => [count(row), 0, 0],
    }
}

fn rows_are_good(rows: &[[u8; 8]], sections: &[&[u8]; 4]) -> bool {
    let mut used = [0; 3];
    for row in rows {
        for (sum, more) in used.iter_mut().zip(uses(row)) {
            *sum += more;
        }
    }
    rows.iter().all(row_is_good)
        && stack_after(rows) == Some(1)
        && used.iter().zip(&sections[1..]).all(|(sum, section)| sum * 8 == section.len())
}

fn row_is_good(row: &[u8; 8]) -> bool {
    match row[0] {
        0 => *row == [0, 0, 1, 0, 0, 0, 0, 0],
        1 => usize::from(row[1]) < BARS.len() && minima(row) == 0,
        2 => usize::from(row[1]) < AXES.len(),
        _ => false,
    }
}

/// How many specs stand on the stack once all rows are put together.
fn stack_after(rows: &[[u8; 8]]) -> Option<usize> {
    rows.iter().rev().try_fold(0_usize, |height, row| {
        let taken = if row[0] == 2 { count(row) } else { 0 };
        Some(height.checked_sub(taken)? + 1)
    })
}

fn put_together(rows: &[[u8; 8]], sections: &[&[u8]; 4]) -> TileSpec {
    let mut ends = [sections[1], sections[2], sections[3]];
    let mut stack = Vec::new();
    for row in rows.iter().rev() {
        let [panes, shares, minima] = cut(&mut ends, uses(row));
        let spec = match row[0] {
            0 => TileSpec::Pane(PaneId(numbers(panes)[0])),
            1 => TileSpec::Tabs {
                panes: numbers(panes).into_iter().map(PaneId).collect(),
                active: extra(row),
                placement: bar_there(BARS[usize::from(row[1])]),
            },
            _ => TileSpec::Split {
                axis: axis_there(AXES[usize::from(row[1])]),
                children: (0..count(row)).filter_map(|_| stack.pop()).collect(),
                shares: numbers(shares).into_iter().map(f64::from_bits).collect(),
                constraints: SplitConstraints {
                    min_major: numbers(minima).into_iter().map(f64::from_bits).collect(),
                },
            },
        };
        stack.push(spec);
    }
    stack.pop().expect("good rows have one root")
}

/// A row's own entries, cut from the ends of what is left.
fn cut<'a>(ends: &mut [&'a [u8]; 3], entries: [usize; 3]) -> [&'a [u8]; 3] {
    let mut own = *ends;
    for at in 0..3 {
        let keep = ends[at].len() - entries[at] * 8;
        (ends[at], own[at]) = ends[at].split_at(keep);
    }
    own
}

fn numbers(bytes: &[u8]) -> Vec<u64> {
    bytes.as_chunks().0.iter().map(|chunk| u64::from_le_bytes(*chunk)).collect()
}
