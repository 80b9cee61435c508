//! Any bytes and any numbers through every call.
//!
//! Checked of each answer: its number is 0 to 18; a code that is none is 5 and
//! nothing is written; a refused call leaves what it was lent as it was; an
//! accepted tree is sound for the library and for the model; and the whole
//! answer is the model's, bit for bit.

mod numbers;

use std::collections::BTreeMap;

use oracle::engine::Engine;
use oracle::generate::rng::Rng;
use oracle::generate::tables::table;
use oracle::model::Model;
use oracle::value::{List, Refusal, TileTree};
use oracle::wire::Writer;
use tiling::Arena;

use self::numbers::{any_arena, any_bytes, any_input, any_real, any_words, mutated};
use crate::columns::{arena_of, codes_are_good, input_of, op_of, tree_of, words_are_good};
use crate::library::Library;

pub struct Fuzz {
    seed: u64,
    library: Library,
    counts: BTreeMap<String, u64>,
}

/// A generator of its own, beside those of the comparison's kinds.
const KIND: u64 = 77;

impl Fuzz {
    pub fn new(seed: u64) -> Self {
        Self { seed, library: Library::default(), counts: BTreeMap::new() }
    }

    /// How often each call was refused with each number, or accepted.
    pub fn counts(&self) -> impl Iterator<Item = (&str, u64)> {
        self.counts.iter().map(|(what, &times)| (what.as_str(), times))
    }

    pub fn case(&mut self, case: u64) {
        let mut rng = Rng::new(self.seed, KIND, case);
        match rng.below(8) {
            0 => self.bytes(&any_bytes(&mut rng)),
            1 | 2 => {
                let table = table(&mut rng);
                self.bytes(&mutated(&mut rng, table));
            }
            3 => self.solver(&mut rng),
            _ => self.numbers(&mut rng),
        }
    }

    fn bytes(&mut self, bytes: &[u8]) {
        let (ours, model) = (self.library.from_spec(bytes), Model.from_spec(bytes));
        self.same(
            "from_spec",
            ours.refusal,
            |to| to.spec_answer(&ours),
            |to| {
                to.spec_answer(&model);
            },
        );
        self.assert_sound(&ours.tree);
    }

    fn solver(&mut self, rng: &mut Rng) {
        let mut list = || {
            let len = if rng.once_in(20) { rng.bits() } else { rng.below(18) };
            List { at: std::array::from_fn(|_| any_real(rng)), len }
        };
        let (shares, mut minima) = (list(), list());
        if rng.below(4) > 0 {
            minima.len = shares.len;
        }
        let total = any_real(rng);
        let ours = self.library.solve(total, &shares, &minima);
        let model = Model.solve(total, &shares, &minima);
        self.same(
            "solve",
            ours.refusal,
            |to| to.solve_answer(&ours),
            |to| {
                to.solve_answer(&model);
            },
        );
    }

    fn numbers(&mut self, rng: &mut Rng) {
        let arena = any_arena(rng);
        let ((words, fraction), input) = (any_words(rng), any_input(rng));
        if !codes_are_good(&arena) {
            self.count("any call", "5, a bad code");
            return self.library.assert_refuses_codes(&arena, &words, &input);
        }
        let tree = tree_of(&arena);
        self.repair(&arena, &tree);
        self.layout(&arena, &tree, &input);
        if !words_are_good(&words) {
            self.count("apply", "5, bad words");
            return self.library.assert_refuses_words(&arena, &words, fraction);
        }
        self.apply(&arena, &tree, &words, fraction);
    }

    fn repair(&mut self, arena: &Arena, tree: &TileTree) {
        let sound = self.library.is_arena_sound(arena);
        let (ours, model) = (self.library.repair_arena(arena), Model.repair(tree));
        let sound_there = Model.is_sound(tree);
        self.count("is_sound", if sound { "yes" } else { "no" });
        self.same(
            "repair",
            ours.refusal,
            |to| to.repair_answer(tree, sound, &ours),
            |to| to.repair_answer(tree, sound_there, &model),
        );
        if ours.refusal.is_none() {
            self.assert_sound(&ours.tree);
        }
    }

    fn layout(&mut self, arena: &Arena, tree: &TileTree, input: &[f64; 8]) {
        let ours = self.library.layout_numbers(arena, input);
        let model = Model.layout(tree, &input_of(input));
        self.same(
            "layout",
            ours.refusal,
            |to| to.layout_answer(&ours),
            |to| {
                to.layout_answer(&model);
            },
        );
    }

    fn apply(&mut self, arena: &Arena, tree: &TileTree, words: &[u64; 8], fraction: f64) {
        let ours = self.library.apply_words(arena, words, fraction);
        let model = Model.apply(tree, &op_of(words, fraction));
        self.same(
            "apply",
            ours.refusal,
            |to| to.apply_answer(tree, &ours),
            |to| {
                to.apply_answer(tree, &model);
            },
        );
        if ours.refusal.is_none() {
            self.assert_sound(&ours.tree);
        }
    }

    fn assert_sound(&mut self, tree: &TileTree) {
        assert!(self.library.is_arena_sound(&arena_of(tree)), "the library calls it sound");
        assert!(Model.is_sound(tree), "the model calls it sound");
    }

    /// The two answers are written alike.
    fn same(
        &mut self,
        call: &str,
        refusal: Option<Refusal>,
        ours: impl Fn(&mut Writer),
        model: impl Fn(&mut Writer),
    ) {
        let number = refusal.map_or(0, |refusal| refusal.number);
        assert!(number <= 18, "{call} answers {number}");
        self.count(call, &number.to_string());
        let (mut a, mut b) = (Writer::default(), Writer::default());
        ours(&mut a);
        model(&mut b);
        assert!(a.bytes == b.bytes, "{call} differs from the model");
    }

    fn count(&mut self, call: &str, what: &str) {
        *self.counts.entry(format!("{call}: {what}")).or_default() += 1;
    }
}
