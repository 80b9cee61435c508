//! The library as an implementation of document 01, by its boundary: every
//! value goes in and comes out as numbers.
//!
//! What the boundary promises beside the answers is asserted on the way: a
//! refused call leaves what it was lent as it was, and a frame or a list of
//! actions is written no further than its end.

use oracle::engine::Engine;
use oracle::value::{
    Action, Frame, LayoutAnswer, LayoutInput, Reals, Refusal, RepairAnswer, SolveAnswer, TileId,
    TileOp, TileTree, TreeAnswer,
};
use tiling::Arena;
use tiling::boundary::{self, ACTIONS, Actions, Items, Out, PLACES, Rects};

use crate::columns::{arena_of, numbers_of, tree_of, words_of};
use crate::stream::frame_of;

/// What stands in arrays before a call, so that a write past the end is seen.
const UNTOUCHED: u64 = 0x5eed_0f0f_f0f0_1234;

pub struct Library {
    actions: Box<Actions>,
    items: Box<Items>,
    rects: Box<Rects>,
}

impl Default for Library {
    fn default() -> Self {
        Self {
            actions: Box::new([[UNTOUCHED; 3]; ACTIONS]),
            items: Box::new([[UNTOUCHED; 5]; PLACES]),
            rects: Box::new([[f64::from_bits(UNTOUCHED); 4]; PLACES]),
        }
    }
}

fn refusal(number: u64, out: &Out) -> Option<Refusal> {
    (number != 0).then_some(Refusal { number, details: [out[0], out[1]] })
}

fn assert_as_before(arena: &Arena, before: &Arena) {
    assert!(arena.same_bits(before), "a refused call wrote its arena");
}

impl Engine for Library {
    fn name(&self) -> &'static str {
        "library"
    }

    fn from_spec(&mut self, bytes: &[u8]) -> TreeAnswer {
        let (mut arena, mut out) = (Arena::boxed(), [UNTOUCHED; 4]);
        let number = boundary::from_spec(bytes, &mut arena, &mut out);
        TreeAnswer { refusal: refusal(number, &out), tree: tree_of(&arena) }
    }

    fn repair(&mut self, tree: &TileTree) -> RepairAnswer {
        self.repair_arena(&arena_of(tree))
    }

    fn is_sound(&mut self, tree: &TileTree) -> bool {
        self.is_arena_sound(&arena_of(tree))
    }

    fn apply(&mut self, tree: &TileTree, op: &TileOp) -> TreeAnswer {
        let (words, fraction) = words_of(op, UNTOUCHED);
        self.apply_words(&arena_of(tree), &words, fraction)
    }

    fn layout(&mut self, tree: &TileTree, input: &LayoutInput) -> LayoutAnswer {
        self.layout_numbers(&arena_of(tree), &numbers_of(input))
    }

    fn solve(&mut self, total: f64, shares: &Reals, minima: &Reals) -> SolveAnswer {
        let mut lengths = [f64::from_bits(UNTOUCHED); 16];
        let mut out = [UNTOUCHED; 4];
        let (parts, least) = ((&shares.at, shares.len), (&minima.at, minima.len));
        let number = boundary::solve(total, parts, least, &mut lengths, &mut out);
        let refusal = refusal(number, &out);
        if refusal.is_some() {
            assert!(lengths.iter().all(|length| length.to_bits() == UNTOUCHED));
            assert_eq!((out[2], out[3]), (0, 0), "a refused solve has no lengths and no passes");
            return SolveAnswer { refusal, lengths: Vec::new(), passes: 0 };
        }
        let (lengths, past) = lengths.split_at(out[2] as usize);
        assert!(past.iter().all(|length| length.to_bits() == 0), "zeros stand past the lengths");
        SolveAnswer { refusal, lengths: lengths.to_vec(), passes: out[3] }
    }
}

/// The calls on arenas of any numbers whose codes are all good.
impl Library {
    pub fn repair_arena(&mut self, before: &Arena) -> RepairAnswer {
        let (mut arena, mut out) = (Box::new(before.clone()), [UNTOUCHED; 4]);
        let number = boundary::repair(&mut arena, &mut self.actions, &mut out);
        if number != 0 {
            assert_as_before(&arena, before);
        }
        RepairAnswer {
            refusal: refusal(number, &out),
            tree: tree_of(&arena),
            actions: self.actions_taken(number, out[2]),
        }
    }

    pub fn is_arena_sound(&mut self, arena: &Arena) -> bool {
        match boundary::is_sound(arena) {
            0 => true,
            4 => false,
            other => panic!("is_sound answers {other}"),
        }
    }

    pub fn apply_words(&mut self, before: &Arena, words: &[u64; 8], fraction: f64) -> TreeAnswer {
        let (mut arena, mut out) = (Box::new(before.clone()), [UNTOUCHED; 4]);
        let number = boundary::apply(&mut arena, words, fraction, &mut out);
        if number != 0 {
            assert_as_before(&arena, before);
        }
        TreeAnswer { refusal: refusal(number, &out), tree: tree_of(&arena) }
    }

    pub fn layout_numbers(&mut self, arena: &Arena, numbers: &[f64; 8]) -> LayoutAnswer {
        let mut out = [UNTOUCHED; 4];
        let (items, rects) = (&mut *self.items, &mut *self.rects);
        let number = boundary::layout_into(arena, numbers, items, rects, &mut out);
        if number == 0 {
            assert_eq!(out[3], arena.top[1], "the frame's revision is the tree's");
        }
        LayoutAnswer { refusal: refusal(number, &out), frame: self.entries(number, out[2]) }
    }

    /// With a code that is none every call that takes an arena answers 5 and
    /// writes nothing.
    pub fn assert_refuses_codes(&mut self, given: &Arena, words: &[u64; 8], input: &[f64; 8]) {
        let (mut arena, mut out) = (Box::new(given.clone()), [UNTOUCHED; 4]);
        let (items, rects) = (&mut *self.items, &mut *self.rects);
        let numbers = [
            boundary::repair(&mut arena, &mut self.actions, &mut out),
            boundary::is_sound(&arena),
            boundary::apply(&mut arena, words, 0.5, &mut out),
            boundary::layout_into(&arena, input, items, rects, &mut out),
        ];
        assert_eq!(numbers, [5; 4], "a bad code is 5");
        self.assert_nothing_written(given, &arena, &out);
    }

    /// The same for a change whose own words are bad.
    pub fn assert_refuses_words(&mut self, given: &Arena, words: &[u64; 8], fraction: f64) {
        let (mut arena, mut out) = (Box::new(given.clone()), [UNTOUCHED; 4]);
        let number = boundary::apply(&mut arena, words, fraction, &mut out);
        assert_eq!(number, 5, "bad words are 5");
        self.assert_nothing_written(given, &arena, &out);
    }

    fn assert_nothing_written(&mut self, before: &Arena, arena: &Arena, out: &Out) {
        assert_as_before(arena, before);
        assert_eq!(*out, [UNTOUCHED; 4], "nothing is told of a bad code");
        // With no action and no entry taken, all places must be untouched.
        self.actions_taken(0, 0);
        self.entries(0, 0);
    }

    /// The actions written; the places are made ready for the next call.
    fn actions_taken(&mut self, number: u64, count: u64) -> Vec<Action> {
        assert!(number == 0 || count == 0, "a refused repair lists {count} actions");
        let (taken, rest) = self.actions.split_at_mut(count as usize);
        assert!(rest.iter().all(|row| *row == [UNTOUCHED; 3]), "an action past the end");
        let actions = taken.iter().map(action_of).collect();
        taken.fill([UNTOUCHED; 3]);
        actions
    }

    fn entries(&mut self, number: u64, count: u64) -> Frame {
        assert!(number == 0 || count == 0, "a refused layout lists {count} entries");
        let (items, past_items) = self.items.split_at_mut(count as usize);
        let (rects, past_rects) = self.rects.split_at_mut(count as usize);
        assert!(past_items.iter().all(|row| *row == [UNTOUCHED; 5]), "an item past the end");
        let untouched = |row: &[f64; 4]| row.map(f64::to_bits) == [UNTOUCHED; 4];
        assert!(past_rects.iter().all(untouched), "a rectangle past the end");
        let frame = frame_of(items, rects);
        items.fill([UNTOUCHED; 5]);
        rects.fill([f64::from_bits(UNTOUCHED); 4]);
        frame
    }
}

fn action_of(&[what, slot, pane]: &[u64; 3]) -> Action {
    let tile = TileId { slot };
    assert!(what == 5 || pane == 0, "only a duplicate names a pane");
    match what {
        0 => Action::RemovedInvalidNode(tile),
        1 => Action::RepairedActiveTab(tile),
        2 => Action::RepairedShares(tile),
        3 => Action::RepairedConstraints(tile),
        4 => Action::CollapsedSplit(tile),
        5 => Action::RemovedDuplicatePane { pane, tile },
        other => panic!("an action of kind {other}"),
    }
}
