//! The state of a set's random numbers. The Rust keeps it private, so it is read from the victims that copies of the
//! set give: each tells the next state's remainder by its own number of ways.

use oracle::falcon::cache::{CacheLine, CacheSet, ReplacementPolicy};

/// The copies' ways: no two share a factor, and their product passes 2^32.
const WAYS: [u64; 9] = [23, 19, 17, 16, 13, 11, 9, 7, 5];

/// The step of cache.rs, and what times its factor is 1.
const FACTOR: u32 = 1_664_525;
const ADDED: u32 = 1_013_904_223;
const FACTOR_UNDONE: u32 = 4_276_115_653;
const _: () = assert!(FACTOR.wrapping_mul(FACTOR_UNDONE) == 1);

const VALID: CacheLine = CacheLine {
    valid: true,
    tag: 0,
    dirty: false,
    data: Vec::new(),
    freq: 0,
    ref_bit: false,
    exclusive: false,
    invalidated: false,
};

/// The set's state; the set itself stays as it is.
pub fn of(set: &CacheSet) -> u32 {
    let bare = bare(set);
    let (mut next, mut product) = (0, 1);
    for ways in WAYS {
        let remainder = random_victim(bare.clone(), ways);
        while next % ways != remainder {
            next += product;
        }
        product *= ways;
    }
    let next = u32::try_from(next).expect("a state of 32 bits");
    next.wrapping_sub(ADDED).wrapping_mul(FACTOR_UNDONE)
}

/// A copy with nothing but the state, which is quick to copy on.
fn bare(set: &CacheSet) -> CacheSet {
    let mut bare = set.clone();
    bare.lines.clear();
    bare.lru_order.clear();
    bare.fifo_order.clear();
    bare
}

fn random_victim(mut copy: CacheSet, ways: u64) -> u64 {
    copy.lines = vec![VALID; ways as usize];
    copy.find_victim(ReplacementPolicy::Random) as u64
}
