//! The library's calls as they are: numbers in, numbers out.
//!
//! For programs that test the boundary itself; a host uses
//! [`TileTree`](crate::TileTree). Each call answers document 01's number, 0
//! where it accepts. A number that is no kind, mode, axis, placement or
//! operation is 5, and then nothing at all is written.

use crate::arena::Arena;
use crate::ffi;

/// First detail, second detail, a count, and one more number.
pub type Out = [u64; 4];

/// How many actions a repair can have: these places always suffice.
pub const ACTIONS: usize = 1300;

/// Repair's actions: what (0 to 5, in the order of
/// [`RepairAction`](crate::RepairAction)), the tile, the pane.
pub type Actions = [[u64; 3]; ACTIONS];

/// How many entries a frame can have.
pub const PLACES: usize = 2304;

/// A frame's entries: kind, tile, pane or child, index, mode.
pub type Items = [[u64; 5]; PLACES];

/// The rectangles of a frame's entries.
pub type Rects = [[f64; 4]; PLACES];

/// A tree from a spec's table. A refused one writes the lone empty root.
pub fn from_spec(bytes: &[u8], arena: &mut Arena, out: &mut Out) -> u64 {
    ffi::from_spec(bytes, arena, out)
}

/// Makes an arena sound; `out[2]` says how many actions there are.
pub fn repair(arena: &mut Arena, actions: &mut Actions, out: &mut Out) -> u64 {
    ffi::repair(arena, actions, out)
}

/// 0 where the arena is sound, 4 where it is not.
#[must_use]
pub fn is_sound(arena: &Arena) -> u64 {
    let Arena { top, heads, ids, shares, minima } = arena;
    ffi::tiling_is_sound(top, heads, ids, shares, minima)
}

/// One change. The words: what (0 activate, 1 close, 2 split pane, 3 move,
/// 4 reorder), pane, axis, placement, new pane or the tile named, target
/// (0 root, 1 beside a tile, 2 into a group), whether an index is given, index.
pub fn apply(arena: &mut Arena, words: &[u64; 8], fraction: f64, out: &mut Out) -> u64 {
    let Arena { top, heads, ids, shares, minima } = arena;
    ffi::tiling_apply(top, heads, ids, shares, minima, words, fraction, out)
}

/// A frame; `out[2]` says how many entries it has, `out[3]` the revision. The
/// input: x0, y0, x1, y1, tab bar, split handle, minimum width and height.
pub fn layout_into(
    arena: &Arena,
    input: &[f64; 8],
    items: &mut Items,
    rects: &mut Rects,
    out: &mut Out,
) -> u64 {
    ffi::layout_into(arena, input, items, rects, out)
}

/// The lengths of a split's children; `out[2]` says how many, `out[3]` the
/// passes.
pub fn solve(
    total: f64,
    shares: (&[f64; 16], u64),
    minima: (&[f64; 16], u64),
    lengths: &mut [f64; 16],
    out: &mut Out,
) -> u64 {
    ffi::tiling_solve(total, shares.0, shares.1, minima.0, minima.1, lengths, out)
}
