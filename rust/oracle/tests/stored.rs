//! Reads the stored answers as docs/VECTORS.md describes them, with a cursor
//! over bytes as a Rattle program would, and puts every case to the original
//! and to the model.

mod common;

use std::fs;
use std::path::Path;

use common::*;
use oracle::value::{
    Axis, DockTarget, Kind, LayoutInput, List, Placement, Reals, Rect, Refusal, Slot,
    TabBarPlacement, TileId, TileOp, TileTree, same_bits, same_tree_bits,
};
use oracle::wire::Writer;

struct Reader<'a> {
    bytes: &'a [u8],
    at: usize,
}

impl<'a> Reader<'a> {
    fn byte(&mut self) -> u8 {
        self.at += 1;
        self.bytes[self.at - 1]
    }

    fn number(&mut self) -> u64 {
        let mut number = 0;
        for place in 0..10 {
            let byte = self.byte();
            number |= u64::from(byte & 0x7f) << (7 * place);
            if byte < 0x80 {
                return number;
            }
        }
        panic!("a number has at most ten bytes");
    }

    fn real(&mut self) -> f64 {
        let real = f64::from_le_bytes(std::array::from_fn(|_| self.byte()));
        assert!(!real.is_nan() || same_bits(&real, &f64::NAN), "only one NaN is stored");
        real
    }

    fn take(&mut self, count: usize) -> &'a [u8] {
        self.at += count;
        &self.bytes[self.at - count..self.at]
    }

    fn list<T: Copy>(&mut self, blank: T, entry: impl Fn(&mut Self) -> T) -> List<T> {
        let mut list = List { at: [blank; 16], len: self.number() };
        for place in 0..list.len.min(16) as usize {
            list.at[place] = entry(self);
        }
        list
    }

    fn reals(&mut self) -> Reals {
        self.list(0.0, Self::real)
    }

    fn tile(&mut self) -> TileId {
        id(self.number())
    }

    fn axis(&mut self) -> Axis {
        [Horizontal, Vertical][self.number() as usize]
    }

    fn side(&mut self) -> Placement {
        [Before, After][self.number() as usize]
    }

    fn bar(&mut self) -> TabBarPlacement {
        use TabBarPlacement::{Bottom, Right};
        [Hidden, Top, Bottom, Left, Right][self.number() as usize]
    }

    fn slot(&mut self) -> Slot {
        let mut slot = Slot::EMPTY;
        match self.number() {
            0 => {}
            1 => slot.kind = Kind::Pane(self.number()),
            2 => {
                slot.kind = Kind::Tabs(self.bar());
                slot.active = self.number();
                slot.panes = self.list(0, Self::number);
            }
            3 => {
                slot.kind = Kind::Split(self.axis());
                slot.children = self.list(id(0), Self::tile);
                slot.shares = self.reals();
                slot.minima = self.reals();
            }
            other => panic!("no slot has kind {other}"),
        }
        slot
    }

    /// A whole tree, or what differs from the one before.
    fn tree_over(&mut self, before: &TileTree) -> TileTree {
        let mut tree = before.clone();
        tree.root = self.tile();
        tree.revision = self.number();
        for _ in 0..self.number() {
            let at = self.number() as usize;
            tree.slots[at] = self.slot();
        }
        tree
    }

    fn tree(&mut self) -> TileTree {
        self.tree_over(&TileTree::blank())
    }

    fn refusal(&mut self) -> Option<Refusal> {
        let number = self.number();
        let details = [self.number(), self.number()];
        (number != 0).then_some(Refusal { number, details })
    }

    fn op(&mut self) -> TileOp {
        match self.number() {
            0 => TileOp::Activate { pane: self.number() },
            1 => TileOp::Close { pane: self.number() },
            2 => TileOp::SplitPane {
                pane: self.number(),
                axis: self.axis(),
                new_pane: self.number(),
                placement: self.side(),
                fraction: self.real(),
            },
            3 => TileOp::Move { pane: self.number(), target: self.target() },
            4 => TileOp::Reorder { group: self.tile(), pane: self.number(), index: self.number() },
            other => panic!("no operation has kind {other}"),
        }
    }

    fn target(&mut self) -> DockTarget {
        match self.number() {
            0 => DockTarget::Root,
            1 => DockTarget::Beside {
                tile: self.tile(),
                axis: self.axis(),
                placement: self.side(),
                ratio: self.real(),
            },
            2 => {
                let (group, has_index, index) = (self.tile(), self.number(), self.number());
                DockTarget::Into { group, index: (has_index == 1).then_some(index) }
            }
            other => panic!("no target has kind {other}"),
        }
    }

    fn rect(&mut self) -> Rect {
        Rect { x0: self.real(), y0: self.real(), x1: self.real(), y1: self.real() }
    }

    fn input(&mut self) -> LayoutInput {
        LayoutInput {
            outer: self.rect(),
            handle: self.real(),
            bar: self.real(),
            min_width: self.real(),
            min_height: self.real(),
        }
    }

    /// What is left of the body, to be compared as it is written.
    fn rest(&mut self) -> &'a [u8] {
        self.take(self.bytes.len() - self.at)
    }

    fn ends(&self) {
        assert_eq!(self.at, self.bytes.len(), "a body ends where its length says");
    }
}

/// Every body of a file, after its magic word and its count.
fn each_case(file: &str, magic: &[u8; 8], least: u64, test: impl Fn(&mut Reader<'_>)) {
    let path = Path::new(env!("CARGO_MANIFEST_DIR")).join("vectors").join(file);
    let bytes = fs::read(path).expect("the stored answers are there");
    assert!(bytes.len() < 4_000_000);
    let mut reader = Reader { bytes: &bytes, at: 0 };
    assert_eq!(reader.take(8), magic);
    let cases = reader.number();
    assert!(cases >= least);
    for _ in 0..cases {
        let length = reader.number() as usize;
        assert!(length <= 65_536);
        let mut body = Reader { bytes: reader.take(length), at: 0 };
        test(&mut body);
        body.ends();
    }
    reader.ends();
}

fn written(write: impl Fn(&mut Writer)) -> Vec<u8> {
    let mut writer = Writer::default();
    write(&mut writer);
    writer.bytes
}

#[test]
fn solver() {
    each_case("solve.bin", b"DVSOLVE1", 3000, |body| {
        let (total, shares, minima) = (body.real(), body.reals(), body.reals());
        let refusal = body.refusal();
        let lengths: Vec<f64> = (0..body.number()).map(|_| body.real()).collect();
        let passes = body.number();
        on_both(|engine| {
            let answer = engine.solve(total, &shares, &minima);
            assert_eq!((answer.refusal, answer.passes), (refusal, passes));
            assert_eq!(answer.lengths.len(), lengths.len());
            assert!(answer.lengths.iter().zip(&lengths).all(|(a, b)| same_bits(a, b)));
        });
    });
}

#[test]
fn repair() {
    each_case("repair.bin", b"DVREPAI1", 1500, |body| {
        let tree = body.tree();
        let stored = body.rest();
        on_both(|engine| {
            let (sound, answer) = (engine.is_sound(&tree), engine.repair(&tree));
            assert_eq!(written(|to| to.repair_answer(&tree, sound, &answer)), stored);
        });
    });
}

#[test]
fn operations() {
    each_case("operations.bin", b"DVOPERA1", 400, |body| {
        let mut tree = body.tree();
        assert_eq!(body.number(), 20);
        for _ in 0..20 {
            let op = body.op();
            let refusal = body.refusal();
            let after = body.tree_over(&tree);
            on_both(|engine| {
                let answer = engine.apply(&tree, &op);
                assert_eq!(answer.refusal, refusal);
                assert!(same_tree_bits(&answer.tree, &after));
            });
            tree = after;
        }
    });
}

#[test]
fn layout() {
    each_case("layout.bin", b"DVLAYOU1", 800, |body| {
        let (tree, input) = (body.tree(), body.input());
        let stored = body.rest();
        on_both(|engine| {
            let answer = engine.layout(&tree, &input);
            assert_eq!(written(|to| to.layout_answer(&answer)), stored);
        });
    });
}

#[test]
fn spec() {
    each_case("spec.bin", b"DVSPECS1", 1500, |body| {
        let count = body.number() as usize;
        let bytes = body.take(count);
        let refusal = body.refusal();
        let tree = body.tree();
        on_both(|engine| {
            let answer = engine.from_spec(bytes);
            assert_eq!(answer.refusal, refusal);
            assert!(same_tree_bits(&answer.tree, &tree));
        });
    });
}
