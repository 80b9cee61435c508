//! Bytes and numbers of any kind, and ones that are nearly good.

use oracle::generate::hostile::arena;
use oracle::generate::inputs::layout_input;
use oracle::generate::rng::Rng;
use oracle::generate::trees::sound_tree;
use tiling::Arena;
use tiling::arena::{SLOTS, WIDTH};

use crate::columns::{arena_of, numbers_of};

/// Bytes with no thought of a table, save that the first count is often small.
pub fn any_bytes(rng: &mut Rng) -> Vec<u8> {
    let most = if rng.once_in(8) { 4000 } else { 120 };
    let length = rng.index(most);
    let mut bytes: Vec<u8> = (0..length).map(|_| rng.bits() as u8).collect();
    if length >= 4 && rng.once_in(2) {
        bytes[..4].copy_from_slice(&(rng.below(5) as u32).to_le_bytes());
    }
    bytes
}

/// A table with some bytes changed, taken out, put in or said twice.
pub fn mutated(rng: &mut Rng, mut bytes: Vec<u8>) -> Vec<u8> {
    for _ in 0..rng.below(5) {
        if bytes.is_empty() {
            break;
        }
        let at = rng.index(bytes.len());
        match rng.below(6) {
            0 => bytes[at] ^= 1 << rng.below(8),
            1 => bytes[at] = rng.bits() as u8,
            2 => bytes[at] = rng.pick(&[0, 1, 2, 3, 4, 16, 17, 64, 65, 127, 128, 255]),
            3 => bytes.truncate(at),
            4 => bytes.insert(at, rng.bits() as u8),
            _ => {
                let more = bytes[at..].iter().copied().take(8).collect::<Vec<u8>>();
                bytes.splice(at..at, more);
            }
        }
    }
    bytes
}

/// Any bits, or a number that is likely to matter.
pub fn any_number(rng: &mut Rng) -> u64 {
    match rng.below(8) {
        0 => rng.bits(),
        1 => u64::MAX - rng.below(3),
        2 => 1 << rng.below(64),
        3 => rng.below(1000),
        4 => rng.between(14, 18),
        _ => rng.below(70),
    }
}

/// Any bits, NaNs of every kind among them, or a number that may pass.
pub fn any_real(rng: &mut Rng) -> f64 {
    match rng.below(8) {
        0 => f64::from_bits(rng.bits()),
        1 => rng.pick(&[0.0, -0.0, f64::INFINITY, f64::NAN, f64::MAX, f64::MIN_POSITIVE, 5e-324]),
        2 => rng.pick(&[1048576.0, 1048576.0000000002, -1048576.0, 1.0, 0.5, 0.01, -1.0]),
        3 => rng.unit(),
        _ => rng.unit() * 1000.0,
    }
}

/// An arena of any bits; one of small numbers; or a tree with some of its
/// numbers changed.
pub fn any_arena(rng: &mut Rng) -> Box<Arena> {
    let mut given = match rng.below(8) {
        0 => return noise(rng, Rng::bits),
        1 | 2 => {
            let mut given = noise(rng, any_number);
            plain_codes(rng, &mut given);
            given
        }
        3 | 4 => arena_of(&arena(rng)),
        _ => arena_of(&sound_tree(rng)),
    };
    for _ in 0..rng.below(4) {
        change_one(rng, &mut given);
    }
    given
}

fn noise(rng: &mut Rng, number: impl Fn(&mut Rng) -> u64) -> Box<Arena> {
    let mut arena = Arena::boxed();
    arena.top = std::array::from_fn(|_| number(rng));
    arena.heads.as_flattened_mut().fill_with(|| number(rng));
    arena.ids.as_flattened_mut().fill_with(|| number(rng));
    arena.shares.as_flattened_mut().fill_with(|| any_real(rng));
    arena.minima.as_flattened_mut().fill_with(|| any_real(rng));
    arena
}

/// Codes that are some, so that what lies behind the first test is reached; and
/// in half of the arenas lengths up to 16 as well.
fn plain_codes(rng: &mut Rng, arena: &mut Arena) {
    let short = rng.once_in(2);
    for head in &mut arena.heads {
        head[0] = rng.below(4);
        head[1] = rng.below(if head[0] == 3 { 2 } else { 5 });
        if short {
            head[4..7].fill_with(|| rng.below(17));
        }
    }
    if short {
        arena.top[0] = rng.below(SLOTS as u64);
    }
}

fn change_one(rng: &mut Rng, arena: &mut Arena) {
    let (slot, place) = (rng.index(SLOTS), rng.index(WIDTH));
    match rng.below(5) {
        0 => arena.top[rng.index(2)] = any_number(rng),
        1 => arena.heads[slot][rng.index(8)] = any_number(rng),
        2 => arena.ids[slot][place] = any_number(rng),
        3 => arena.shares[slot][place] = any_real(rng),
        _ => arena.minima[slot][place] = any_real(rng),
    }
}

/// An operation's words and its fraction.
pub fn any_words(rng: &mut Rng) -> ([u64; 8], f64) {
    let mut words: [u64; 8] = std::array::from_fn(|_| any_number(rng));
    if rng.below(8) > 0 {
        words[0] = rng.below(5);
        words[1] = rng.below(40);
        words[2] = rng.below(2);
        words[3] = rng.below(2);
        words[5] = rng.below(3);
        words[6] = rng.below(2);
    }
    if rng.once_in(12) {
        words[rng.index(8)] = any_number(rng);
    }
    (words, if rng.once_in(4) { any_real(rng) } else { rng.unit() })
}

pub fn any_input(rng: &mut Rng) -> [f64; 8] {
    let mut input = numbers_of(&layout_input(rng));
    if rng.once_in(3) {
        input[rng.index(8)] = any_real(rng);
    }
    input
}
