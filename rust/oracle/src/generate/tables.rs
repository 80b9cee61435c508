//! Spec tables: good ones, ones that break a rule of the Rust, ones that break
//! the rows, and ones damaged by a byte, cut or extended.

use super::reals;
use super::rng::Rng;

/// A table before it is written: fields can be set wrong one by one.
#[derive(Default)]
pub struct Parts {
    pub rows: Vec<Row>,
    pub panes: Vec<u64>,
    pub shares: Vec<f64>,
    pub minima: Vec<f64>,
}

#[derive(Clone, Copy)]
pub struct Row {
    pub kind: u8,
    pub mode: u8,
    pub count: u16,
    pub extra: u16,
    pub minima: u16,
}

impl Parts {
    pub fn bytes(&self) -> Vec<u8> {
        let mut bytes = Vec::new();
        bytes.extend((self.rows.len() as u32).to_le_bytes());
        for row in &self.rows {
            bytes.extend([row.kind, row.mode]);
            for field in [row.count, row.extra, row.minima] {
                bytes.extend(field.to_le_bytes());
            }
        }
        section(&mut bytes, self.panes.iter().map(|pane| pane.to_le_bytes()));
        section(&mut bytes, self.shares.iter().map(|share| share.to_le_bytes()));
        section(&mut bytes, self.minima.iter().map(|minimum| minimum.to_le_bytes()));
        bytes
    }
}

fn section(bytes: &mut Vec<u8>, entries: impl ExactSizeIterator<Item = [u8; 8]>) {
    bytes.extend((entries.len() as u32).to_le_bytes());
    bytes.extend(entries.flatten());
}

/// Any table: two in five are good as far as the rows go.
pub fn table(rng: &mut Rng) -> Vec<u8> {
    let tiles = tile_count(rng);
    let mut parts = good_parts(rng, tiles);
    match rng.below(10) {
        0..=3 => parts.bytes(),
        4..=6 => {
            break_a_rule(rng, &mut parts);
            parts.bytes()
        }
        7 => {
            break_a_row(rng, &mut parts);
            parts.bytes()
        }
        _ => damage(rng, parts.bytes()),
    }
}

fn tile_count(rng: &mut Rng) -> u64 {
    match rng.below(16) {
        0 => 1,
        1 => rng.between(60, 64),
        2 => rng.between(65, 70),
        3..=5 => rng.between(17, 64),
        _ => rng.between(1, 16),
    }
}

/// A table that the Rust accepts, of about so many tiles. It may still be
/// refused for more than 64 rows, for 17 children, or for what melting makes.
pub fn good_parts(rng: &mut Rng, tiles: u64) -> Parts {
    let mut maker = Maker {
        parts: Parts::default(),
        next_pane: rng.below(50),
        stays_on_axis: rng.pick(&[2, 6, 1000]),
        wide: rng.once_in(24),
        deep: rng.once_in(10),
    };
    let axis = rng.pick(&[0, 1]);
    maker.tile(rng, tiles, axis);
    maker.parts
}

struct Maker {
    parts: Parts,
    next_pane: u64,
    /// Once in so many times a child split has its parent's axis, and melts.
    stays_on_axis: u64,
    wide: bool,
    /// Every split has a leaf and all the rest under one other child.
    deep: bool,
}

impl Maker {
    fn tile(&mut self, rng: &mut Rng, tiles: u64, axis: u8) {
        if tiles < 3 {
            return self.leaf(rng);
        }
        let widest = if self.wide { 18 } else { 16 };
        let most = if rng.once_in(3) { widest } else { 4 };
        let children = rng.between(2, most.min(tiles - 1));
        let sizes = match tiles {
            5.. if self.deep && rng.once_in(2) => vec![1, tiles - 2],
            5.. if self.deep => vec![tiles - 2, 1],
            _ => sizes(rng, tiles - 1, children),
        };
        self.split_row(rng, axis, sizes.len());
        for size in sizes {
            let same = rng.once_in(self.stays_on_axis);
            self.tile(rng, size, if same { axis } else { 1 - axis });
        }
    }

    fn split_row(&mut self, rng: &mut Rng, axis: u8, children: usize) {
        let minima = if rng.once_in(3) { rng.index(children + 1) } else { 0 };
        let shares = children as u16;
        self.parts.rows.push(Row {
            kind: 2,
            mode: axis,
            count: shares,
            extra: shares,
            minima: minima as u16,
        });
        self.parts.shares.extend((0..children).map(|_| reals::good_share(rng)));
        self.parts.minima.extend((0..minima).map(|_| reals::good_minimum(rng)));
    }

    fn leaf(&mut self, rng: &mut Rng) {
        if rng.once_in(2) {
            self.parts.rows.push(Row { kind: 0, mode: 0, count: 1, extra: 0, minima: 0 });
            return self.panes(rng, 1);
        }
        let most = if rng.once_in(8) { 16 } else { 4 };
        let most = if self.wide { 18 } else { most };
        let count = rng.between(1, most);
        let extra = rng.below(count) as u16;
        self.parts.rows.push(Row {
            kind: 1,
            mode: rng.below(5) as u8,
            count: count as u16,
            extra,
            minima: 0,
        });
        self.panes(rng, count);
    }

    fn panes(&mut self, rng: &mut Rng, count: u64) {
        for _ in 0..count {
            self.next_pane += rng.between(1, 3);
            if rng.once_in(400) {
                self.next_pane += 1 << 40;
            }
            self.parts.panes.push(self.next_pane);
        }
    }
}

/// Sizes that add up to `tiles`, none of them 2, since no tree has two tiles.
fn sizes(rng: &mut Rng, tiles: u64, children: u64) -> Vec<u64> {
    let mut sizes = vec![1; children as usize];
    for _ in children..tiles {
        let at = rng.index(sizes.len());
        sizes[at] += 1;
    }
    while let Some(pair) = sizes.iter().position(|&size| size == 2) {
        let other = sizes.iter().rposition(|&size| size >= 2).expect("the pair is one");
        if other == pair && sizes.len() >= 16 {
            sizes[pair] = 1;
        } else if other == pair {
            sizes[pair] = 1;
            sizes.push(1);
        } else {
            sizes[pair] = 1;
            sizes[other] += 1;
        }
    }
    sizes
}

/// One of the Rust's refusals, or document 01's 3, with the sections in step.
fn break_a_rule(rng: &mut Rng, parts: &mut Parts) {
    match rng.below(8) {
        0 => {
            if !parts.shares.is_empty() {
                let at = rng.index(parts.shares.len());
                parts.shares[at] = reals::bad_share(rng);
            }
        }
        1 => {
            if !parts.minima.is_empty() {
                let at = rng.index(parts.minima.len());
                parts.minima[at] = reals::bad_minimum(rng);
            }
        }
        2 | 3 => {
            let (from, to) = (rng.index(parts.panes.len()), rng.index(parts.panes.len()));
            parts.panes[to] = parts.panes[from];
        }
        4 => wrong_active(rng, parts),
        5 => wrong_shares(rng, parts),
        6 => wrong_minima(rng, parts),
        _ => wrong_leaf(rng, parts),
    }
}

fn rows_of(parts: &Parts, kind: u8) -> Vec<usize> {
    (0..parts.rows.len()).filter(|&at| parts.rows[at].kind == kind).collect()
}

fn wrong_active(rng: &mut Rng, parts: &mut Parts) {
    let groups = rows_of(parts, 1);
    if let Some(&at) = groups.first() {
        let count = parts.rows[at].count;
        parts.rows[at].extra = rng.pick(&[count, count + 1, 16, 65535]);
    }
}

/// A split with too few or too many shares, up to 17 and more of them.
fn wrong_shares(rng: &mut Rng, parts: &mut Parts) {
    let splits = rows_of(parts, 2);
    if splits.is_empty() {
        return;
    }
    let at = rng.pick(&splits);
    let place: usize =
        parts.rows[..at].iter().filter(|row| row.kind == 2).map(|row| row.extra as usize).sum();
    if rng.once_in(2) && parts.rows[at].extra > 0 {
        parts.rows[at].extra -= 1;
        parts.shares.remove(place);
    } else {
        let more = rng.pick(&[1, 2, 15, 17]);
        parts.rows[at].extra += more;
        for _ in 0..more {
            parts.shares.insert(place, reals::good_share(rng));
        }
    }
}

/// A split with more minima than children.
fn wrong_minima(rng: &mut Rng, parts: &mut Parts) {
    let splits = rows_of(parts, 2);
    if splits.is_empty() {
        return;
    }
    let at = rng.pick(&splits);
    let place: usize = parts.rows[..at].iter().map(|row| row.minima as usize).sum();
    let more = parts.rows[at].count - parts.rows[at].minima.min(parts.rows[at].count)
        + rng.pick(&[0, 1, 2, 15]);
    parts.rows[at].minima += more;
    for _ in 0..more {
        parts.minima.insert(place, reals::good_minimum(rng));
    }
}

/// The last leaf becomes an empty group, or a split of no child or of one.
fn wrong_leaf(rng: &mut Rng, parts: &mut Parts) {
    let Some(last) = parts.rows.last().copied() else { return };
    parts.rows.pop();
    for _ in 0..last.count {
        parts.panes.pop();
    }
    let wrong = match rng.below(4) {
        0 => Row { kind: 1, mode: 0, count: 0, extra: 0, minima: 0 },
        1 => Row { kind: 1, mode: 4, count: 0, extra: 9, minima: 0 },
        2 => Row { kind: 2, mode: 1, count: 0, extra: 0, minima: 0 },
        _ => Row { kind: 2, mode: 0, count: 1, extra: 0, minima: 0 },
    };
    parts.rows.push(wrong);
    if wrong.count == 1 {
        parts.rows.push(Row { kind: 0, mode: 0, count: 1, extra: 0, minima: 0 });
        parts.panes.push(7);
    }
}

/// A field out of step with the rest.
fn break_a_row(rng: &mut Rng, parts: &mut Parts) {
    let at = rng.index(parts.rows.len());
    let row = &mut parts.rows[at];
    match rng.below(9) {
        0 => row.kind = rng.pick(&[0, 1, 2, 3, 255]),
        1 => row.mode = rng.pick(&[0, 1, 2, 4, 5, 255]),
        2 => row.count = row.count.wrapping_add(rng.pick(&[1, 65535])),
        3 => row.extra = row.extra.wrapping_add(rng.pick(&[1, 65535])),
        4 => row.minima = row.minima.wrapping_add(rng.pick(&[1, 65535])),
        5 => {
            parts.rows.remove(at);
        }
        6 => {
            let again = *row;
            parts.rows.insert(at, again);
        }
        7 => parts.panes.push(1),
        _ => parts.rows.clear(),
    }
}

fn damage(rng: &mut Rng, mut bytes: Vec<u8>) -> Vec<u8> {
    match rng.below(6) {
        0 => bytes.truncate(rng.index(bytes.len() + 1)),
        1 => bytes.extend((0..rng.between(1, 9)).map(|_| 0)),
        2 => bytes[rng.index(4)] = rng.bits() as u8,
        _ => {
            for _ in 0..rng.between(1, 2) {
                let at = rng.index(bytes.len());
                bytes[at] =
                    if rng.once_in(2) { bytes[at] ^ (1 << rng.below(8)) } else { rng.bits() as u8 };
            }
        }
    }
    bytes
}
