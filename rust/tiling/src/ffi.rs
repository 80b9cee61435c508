//! The calls that the archive exports, and all that is `unsafe` in this crate.
//!
//! No export has a precondition beyond what a Rust reference is: each takes
//! fixed arrays of numbers, any numbers. So most of them are safe to call as
//! they stand. Three are wrapped here: the one that takes a slice, which crosses
//! as a pointer and a length, and fills an arena that nothing cleared; and the
//! two that write long lists, of which only the part in use is ever set up.

use alloc::boxed::Box;
use core::mem::MaybeUninit;

use crate::arena::{Arena, Heads, Ids, Reals, Top};
use crate::boundary::{ACTIONS, Actions, Items, Out, PLACES, Rects};

unsafe extern "C" {
    fn tiling_from_spec(
        bytes: *const u8,
        length: usize,
        top: *mut Top,
        heads: *mut Heads,
        ids: *mut Ids,
        shares: *mut Reals,
        minima: *mut Reals,
        out: &mut Out,
    ) -> u64;

    fn tiling_repair(
        top: &mut Top,
        heads: &mut Heads,
        ids: &mut Ids,
        shares: &mut Reals,
        minima: &mut Reals,
        actions: *mut Actions,
        out: &mut Out,
    ) -> u64;

    pub(crate) safe fn tiling_is_sound(
        top: &Top,
        heads: &Heads,
        ids: &Ids,
        shares: &Reals,
        minima: &Reals,
    ) -> u64;

    pub(crate) safe fn tiling_apply(
        top: &mut Top,
        heads: &mut Heads,
        ids: &mut Ids,
        shares: &mut Reals,
        minima: &mut Reals,
        words: &[u64; 8],
        fraction: f64,
        out: &mut Out,
    ) -> u64;

    fn tiling_layout_into(
        top: &Top,
        heads: &Heads,
        ids: &Ids,
        shares: &Reals,
        minima: &Reals,
        input: &[f64; 8],
        items: *mut Items,
        rects: *mut Rects,
        out: &mut Out,
    ) -> u64;

    pub(crate) safe fn tiling_solve(
        total: f64,
        shares: &[f64; 16],
        share_count: u64,
        minima: &[f64; 16],
        minimum_count: u64,
        lengths: &mut [f64; 16],
        out: &mut Out,
    ) -> u64;
}

pub(crate) fn from_spec(bytes: &[u8], arena: &mut Arena, out: &mut Out) -> u64 {
    let Arena { top, heads, ids, shares, minima } = arena;
    // SAFETY: the first pointer and the length are those of one slice, which is
    // only read; the others are those of arrays lent to this call alone.
    unsafe { tiling_from_spec(bytes.as_ptr(), bytes.len(), top, heads, ids, shares, minima, out) }
}

/// As [`from_spec`], into an arena that nothing cleared first.
pub(crate) fn new_from_spec(bytes: &[u8], out: &mut Out) -> (Box<Arena>, u64) {
    let mut arena = Box::<Arena>::new_uninit();
    let places = arena.as_mut_ptr();
    // SAFETY: the pointers are into a block of an arena's size, lent to this
    // call alone, and the call reads nothing there that it did not write. It
    // clears the four columns whole before anything else, and writes root and
    // revision at its end, accepted or refused. Its contract, `Builds` of
    // crates/tiling_c/specs/Calls.antt, says what tree they hold then, whatever
    // they held before.
    unsafe {
        let (top, heads) = (&raw mut (*places).top, &raw mut (*places).heads);
        let (ids, shares) = (&raw mut (*places).ids, &raw mut (*places).shares);
        let minima = &raw mut (*places).minima;
        let number =
            tiling_from_spec(bytes.as_ptr(), bytes.len(), top, heads, ids, shares, minima, out);
        (arena.assume_init(), number)
    }
}

pub(crate) fn repair(arena: &mut Arena, actions: &mut Actions, out: &mut Out) -> u64 {
    let Arena { top, heads, ids, shares, minima } = arena;
    // SAFETY: the pointer is that of an array lent to this call alone.
    unsafe { tiling_repair(top, heads, ids, shares, minima, actions, out) }
}

pub(crate) fn layout_into(
    arena: &Arena,
    input: &[f64; 8],
    items: &mut Items,
    rects: &mut Rects,
    out: &mut Out,
) -> u64 {
    let Arena { top, heads, ids, shares, minima } = arena;
    // SAFETY: both pointers are those of arrays lent to this call alone.
    unsafe { tiling_layout_into(top, heads, ids, shares, minima, input, items, rects, out) }
}

/// Room for a repair's actions. Only those in use have been written.
pub(crate) struct Report {
    rows: Box<MaybeUninit<Actions>>,
    used: usize,
}

impl Report {
    pub(crate) fn new() -> Self {
        Self { rows: Box::new_uninit(), used: 0 }
    }

    /// Repairs; a refused repair leaves no action in use.
    pub(crate) fn fill(&mut self, arena: &mut Arena, out: &mut Out) -> u64 {
        let Arena { top, heads, ids, shares, minima } = arena;
        let rows = self.rows.as_mut_ptr();
        self.used = 0;
        // SAFETY: the pointer is that of an array lent to this call alone, and
        // the call writes actions, from the first on, and reads none.
        let number = unsafe { tiling_repair(top, heads, ids, shares, minima, rows, out) };
        if number == 0 {
            self.used = at_most(out[2], ACTIONS);
        }
        number
    }

    pub(crate) fn rows(&self) -> &[[u64; 3]] {
        // SAFETY: the repair that set `used` wrote so many actions.
        unsafe { core::slice::from_raw_parts(self.rows.as_ptr().cast(), self.used) }
    }
}

/// A count of the library's, which never passes the places there are.
fn at_most(count: u64, places: usize) -> usize {
    usize::try_from(count).map_or(places, |count| count.min(places))
}

/// The two arrays of a frame.
#[repr(C)]
struct Places {
    items: Items,
    rects: Rects,
}

/// Room for a frame. Only the entries in use have been written, so that making
/// one does not clear 166 KB; and it is one block, since C libraries take and
/// give back two of half the size page by page, again and again.
pub(crate) struct Stream {
    places: Box<MaybeUninit<Places>>,
    used: usize,
}

impl Stream {
    pub(crate) fn new() -> Self {
        Self { places: Box::new_uninit(), used: 0 }
    }

    /// Lays out; a refused layout leaves no entry in use.
    pub(crate) fn fill(&mut self, arena: &Arena, input: &[f64; 8], out: &mut Out) -> u64 {
        let Arena { top, heads, ids, shares, minima } = arena;
        let places = self.places.as_mut_ptr();
        self.used = 0;
        // SAFETY: both pointers are into a block of this size, lent to this
        // call alone, and the call writes entries, from the first on, and reads
        // none.
        let number = unsafe {
            let (items, rects) = (&raw mut (*places).items, &raw mut (*places).rects);
            tiling_layout_into(top, heads, ids, shares, minima, input, items, rects, out)
        };
        if number == 0 {
            self.used = at_most(out[2], PLACES);
        }
        number
    }

    pub(crate) fn items(&self) -> &[[u64; 5]] {
        // SAFETY: the layout that set `used` wrote so many entries.
        unsafe {
            let items = &raw const (*self.places.as_ptr()).items;
            core::slice::from_raw_parts(items.cast(), self.used)
        }
    }

    pub(crate) fn rects(&self) -> &[[f64; 4]] {
        // SAFETY: as above.
        unsafe {
            let rects = &raw const (*self.places.as_ptr()).rects;
            core::slice::from_raw_parts(rects.cast(), self.used)
        }
    }
}
