//! The configurations and addresses to compare on. A shape is a size, a line size and a number of ways.

use crate::rng::Rng;
use oracle::falcon::cache::{CacheConfig, InclusionPolicy, ReplacementPolicy, WriteAllocPolicy, WritePolicy};

pub const REPLACEMENTS: [ReplacementPolicy; 6] = [
    ReplacementPolicy::Lru,
    ReplacementPolicy::Mru,
    ReplacementPolicy::Fifo,
    ReplacementPolicy::Random,
    ReplacementPolicy::Lfu,
    ReplacementPolicy::Clock,
];
const WRITES: [WritePolicy; 2] = [WritePolicy::WriteThrough, WritePolicy::WriteBack];
const ALLOCATIONS: [WriteAllocPolicy; 2] = [WriteAllocPolicy::WriteAllocate, WriteAllocPolicy::NoWriteAllocate];
pub const INCLUSIONS: [InclusionPolicy; 3] =
    [InclusionPolicy::NonInclusive, InclusionPolicy::Inclusive, InclusionPolicy::Exclusive];

/// The port's limits; the Rust has none.
pub const MOST_LINE: u64 = 256;
pub const MOST_WAYS: u64 = 16;
pub const MOST_LINES: u64 = 256;
pub const MOST_LATENCY: u64 = 1_000_000;

#[derive(Clone, Copy)]
pub struct Shape {
    pub size: u64,
    pub line: u64,
    pub ways: u64,
}

impl Shape {
    /// A whole number of sets; what passes 64 bits wraps.
    pub fn of_sets(sets: u64, line: u64, ways: u64) -> Self {
        Self { size: line.wrapping_mul(ways).wrapping_mul(sets), line, ways }
    }

    /// The stock configuration in this shape.
    pub fn config(self) -> CacheConfig {
        CacheConfig {
            size: self.size as usize,
            line_size: self.line as usize,
            associativity: self.ways as usize,
            ..CacheConfig::default()
        }
    }
}

/// The powers of two from one number to another.
pub fn powers(from: u64, to: u64) -> impl Iterator<Item = u64> {
    (0..64).map(|k| 1 << k).filter(move |x| (from..=to).contains(x))
}

/// Every valid shape within the limits.
pub fn within_limits() -> Vec<Shape> {
    let mut all = Vec::new();
    for line in powers(4, MOST_LINE) {
        for ways in 1..=MOST_WAYS {
            all.extend(powers(1, MOST_LINES / ways).map(|sets| Shape::of_sets(sets, line, ways)));
        }
    }
    all
}

/// Shapes past one limit only: the fewest lines too many, longer lines, more ways.
pub fn past_limits() -> Vec<Shape> {
    let mut all = Vec::new();
    for line in powers(4, MOST_LINE) {
        for ways in 1..=MOST_WAYS {
            let sets = (MOST_LINES / ways + 1).next_power_of_two();
            all.push(Shape::of_sets(sets, line, ways));
        }
        // No valid shape has one line too many, but the limit is asked of any shape.
        all.push(Shape::of_sets(MOST_LINES + 1, line, 1));
        all.extend((MOST_WAYS + 1..=MOST_LINES).map(|ways| Shape::of_sets(1, line, ways)));
    }
    for line in powers(MOST_LINE + 1, 1 << 59) {
        all.extend((1..=MOST_WAYS).map(|ways| Shape::of_sets(1, line, ways)));
    }
    all
}

/// A 64-bit number that is likely to lie at some edge.
fn edge(rng: &mut Rng) -> u64 {
    let power = 1 << rng.below(64);
    let (under, over) = (power - 1, power + 1);
    let (small, any, whole) = (rng.below(300), rng.any(), rng.draw());
    rng.pick(&[0, 1, 2, 3, 4, power, power, under, over, u64::MAX, small, any, whole])
}

/// A line size that is sound: a power of two from 4 on.
fn sound_line(rng: &mut Rng) -> u64 {
    4 << rng.below(62)
}

/// Ways for a line size: few, many, or the most of which the product just does or just does not fit 64 bits.
fn ways_for(rng: &mut Rng, line: u64) -> u64 {
    let most = u64::MAX / line;
    let (few, many) = (1 + rng.below(20), 1 + rng.any() % most);
    rng.pick(&[few, many, many, most - 1, most, most + 1])
}

/// A whole number of sets, or one byte off it.
fn near_whole_sets(rng: &mut Rng) -> Shape {
    let line = sound_line(rng);
    let ways = ways_for(rng, line);
    // The most sets whose size fits; a product that wraps to 0 is refused whatever the size.
    let most = u64::MAX / line.wrapping_mul(ways).max(4);
    let whole = Shape::of_sets(edge(rng) % (most + 1), line, ways);
    let off = rng.pick(&[0, 0, 0, 1, u64::MAX]);
    Shape { size: whole.size.wrapping_add(off), ..whole }
}

/// A valid shape of any magnitude.
pub fn valid(rng: &mut Rng) -> Shape {
    loop {
        let line = sound_line(rng);
        let ways = ways_for(rng, line);
        if let Some(set @ 1..) = line.checked_mul(ways) {
            // As many doublings as fit 64 bits.
            let sets = 1 << rng.below(u64::from(set.leading_zeros()) + 1);
            return Shape::of_sets(sets, line, ways);
        }
    }
}

/// A configuration for validation: edges everywhere, edges about a sound line size, almost valid, or valid.
pub fn to_validate(rng: &mut Rng) -> CacheConfig {
    let shape = match rng.below(4) {
        0 => Shape { size: edge(rng), line: edge(rng), ways: edge(rng) },
        1 => Shape { size: edge(rng), line: sound_line(rng), ways: edge(rng) },
        2 => near_whole_sets(rng),
        _ => valid(rng),
    };
    let inclusion = rng.pick(&INCLUSIONS);
    CacheConfig { inclusion, ..dressed(rng, shape, any_latency) }
}

/// The shape with policies, width and latencies by draw, NonInclusive.
pub fn dressed(rng: &mut Rng, shape: Shape, latency: fn(&mut Rng) -> u64) -> CacheConfig {
    let width = rng.any() as u32;
    CacheConfig {
        replacement: rng.pick(&REPLACEMENTS),
        write_policy: rng.pick(&WRITES),
        write_alloc: rng.pick(&ALLOCATIONS),
        hit_latency: latency(rng),
        miss_penalty: latency(rng),
        assoc_penalty: latency(rng),
        transfer_width: rng.pick(&[0, 1, 3, 8, u32::MAX, width]),
        ..shape.config()
    }
}

/// A latency within the limits.
pub fn small_latency(rng: &mut Rng) -> u64 {
    let drawn = rng.below(MOST_LATENCY + 1);
    rng.pick(&[0, 1, MOST_LATENCY, drawn, drawn])
}

/// Any latency: sums of these may wrap.
pub fn any_latency(rng: &mut Rng) -> u64 {
    edge(rng)
}

/// Addresses at the edges of a line, of all sets and of 32 bits.
pub fn edge_addresses(c: &CacheConfig) -> Vec<u32> {
    let line = c.line_size as u32;
    let span = line * c.num_sets() as u32;
    let mut all = vec![0, 1, 0x7FFF_FFFF, 0x8000_0000, 0xFFFF_FFF0, 0xFFFF_FFFF];
    for edge in [line, span, line.wrapping_neg(), span.wrapping_neg()] {
        all.extend([edge.wrapping_sub(1), edge, edge.wrapping_add(1)]);
    }
    all
}
