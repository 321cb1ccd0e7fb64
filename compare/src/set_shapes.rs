//! The sets to compare on, made of fresh ones: each part is drawn from the edges that its rules have.

use crate::rng::Rng;
use oracle::falcon::cache::{CacheSet, ReplacementPolicy};
use std::collections::VecDeque;

/// The bytes of a line, of which the rules of a set have no use.
pub const LINE: usize = 4;

/// Few enough to be met again.
const TAGS: [u32; 12] = [0, 1, 2, 3, 4, 5, 0x100, 0x101, 0x1_0000, 0x7FFF_FFFF, 0x8000_0000, 0xFFFF_FFFF];

/// What the lines of one set draw from: often all the same.
const FREQUENCIES: [&[u64]; 7] =
    [&[0], &[1], &[u64::MAX - 1], &[u64::MAX], &[u64::MAX - 1, u64::MAX], &[0, 1, u64::MAX], &[1, 2, 3]];
const REF_BITS: [&[bool]; 3] = [&[true], &[false], &[true, false]];
const VALID: [&[bool]; 4] = [&[true], &[true], &[true, true, true, true, true, true, true, false], &[true, false]];

pub fn tag(rng: &mut Rng) -> u32 {
    rng.pick(&TAGS)
}

/// The ways in any order.
fn order(rng: &mut Rng, ways: usize) -> VecDeque<usize> {
    let mut order: Vec<usize> = (0..ways).collect();
    for last in 1..ways {
        order.swap(last, rng.below(last as u64 + 1) as usize);
    }
    order.into()
}

/// A full set of any state: the Rust keeps it private, so it is drawn on to.
fn stirred(rng: &mut Rng, ways: usize) -> CacheSet {
    let mut set = CacheSet::new(ways, LINE);
    set.lines.iter_mut().for_each(|line| line.valid = true);
    for _ in 0..rng.below(100) {
        set.find_victim(ReplacementPolicy::Random);
    }
    set
}

/// A full set with its hand at this way, and all else by draw.
pub fn full(rng: &mut Rng, ways: usize, hand: usize) -> CacheSet {
    let mut set = stirred(rng, ways);
    set.lru_order = order(rng, ways);
    set.fifo_order = order(rng, ways);
    set.clock_hand = hand;
    let any = [rng.any(), rng.any(), rng.any()];
    let of_list = rng.pick(&FREQUENCIES);
    let (freq, ref_bit) = (rng.pick(&[of_list, of_list, of_list, &any]), rng.pick(&REF_BITS));
    for line in &mut set.lines {
        line.tag = tag(rng);
        line.freq = rng.pick(freq);
        line.ref_bit = rng.pick(ref_bit);
    }
    set
}

/// The same, full or with invalid lines.
pub fn any(rng: &mut Rng, ways: usize, hand: usize) -> CacheSet {
    let mut set = full(rng, ways, hand);
    let valid = rng.pick(&VALID);
    set.lines.iter_mut().for_each(|line| line.valid = rng.pick(valid));
    set
}

/// A full set whose lines all have this frequency and their bits set.
pub fn alike(rng: &mut Rng, ways: usize, freq: u64) -> CacheSet {
    let hand = rng.below(ways as u64) as usize;
    let mut set = full(rng, ways, hand);
    for line in &mut set.lines {
        line.freq = freq;
        line.ref_bit = true;
    }
    set
}

/// A set with invalid lines, whose lines all have this tag or its neighbour.
pub fn twins(rng: &mut Rng, ways: usize, tag: u32) -> CacheSet {
    let mut set = full(rng, ways, 0);
    for line in &mut set.lines {
        line.valid = rng.pick(&[true, false]);
        line.tag = rng.pick(&[tag, tag ^ 1]);
    }
    set
}
