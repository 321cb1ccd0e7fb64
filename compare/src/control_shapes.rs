//! The levels to open and what to ask of them: lines that meet in one set, and the bytes about RAM's end.

use crate::control::{is_one_access, Access, Kind, Level, Op};
use crate::rng::Rng;
use crate::shapes::{self, powers, Shape, MOST_LINES, REPLACEMENTS};
use oracle::falcon::cache::{CacheConfig, ReplacementPolicy, WriteAllocPolicy, WritePolicy};

const WAYS: [u64; 6] = [1, 2, 3, 4, 8, 16];
const LINES: [u64; 3] = [4, 16, 64];

type Writes = (WritePolicy, WriteAllocPolicy);

/// Those under which stores bring lines in come twice: then each replacement meets each number of ways.
const WRITES: [Writes; 6] = [
    (WritePolicy::WriteBack, WriteAllocPolicy::WriteAllocate),
    (WritePolicy::WriteThrough, WriteAllocPolicy::WriteAllocate),
    (WritePolicy::WriteBack, WriteAllocPolicy::NoWriteAllocate),
    (WritePolicy::WriteThrough, WriteAllocPolicy::NoWriteAllocate),
    (WritePolicy::WriteBack, WriteAllocPolicy::WriteAllocate),
    (WritePolicy::WriteThrough, WriteAllocPolicy::WriteAllocate),
];

/// Where RAM ends.
#[derive(Clone, Copy)]
enum End {
    /// In a line of the set where lines meet.
    InLine,
    /// Before that line: the sets below keep a line that this one and those above lose.
    AtLine,
    /// After every line that is asked for.
    Past,
    /// In the level's first line, or at 0: no line lies inside.
    Short,
}

const ENDS: [End; 4] = [End::InLine, End::InLine, End::AtLine, End::Past];

/// More lines meet in a set than it has ways; RAM may end at the last but one.
const MORE: u64 = 4;
const CUT: u64 = 2;

/// What follows when the set is full, and on a RAM that holds no line. A level of few ways is cleared and filled again.
const MET: u64 = 18;
const MET_TWICE: u64 = 10;
const MET_SHORT: u64 = 9;
const FEW_WAYS: u64 = 4;

/// A level, and the set where its lines meet: in each round it is filled, and then lines meet.
pub struct Opening {
    pub config: CacheConfig,
    pub ram_len: u32,
    set: u64,
    filled: u64,
    met: u64,
    rounds: u64,
}

/// Each replacement under each way to write, with ways, lines and ends by turns; then each way to write on a short RAM.
pub fn openings(rng: &mut Rng) -> Vec<Opening> {
    let mut all = Vec::new();
    for (q, &writes) in WRITES.iter().enumerate() {
        for (p, &replacement) in REPLACEMENTS.iter().enumerate() {
            let (ways, line) = (WAYS[(p + q) % 6], LINES[(p + 2 * q) % 3]);
            let config = config(rng, replacement, writes, ways, line);
            all.push(Opening::of(rng, config, ENDS[(p + 3 * q) % 4]));
        }
    }
    for writes in &WRITES[..4] {
        let (replacement, ways, line) = (rng.pick(&REPLACEMENTS), rng.pick(&WAYS), rng.pick(&LINES));
        let config = config(rng, replacement, *writes, ways, line);
        all.push(Opening::of(rng, config, End::Short));
    }
    all
}

fn config(rng: &mut Rng, replacement: ReplacementPolicy, writes: Writes, ways: u64, line: u64) -> CacheConfig {
    let sets: Vec<u64> = powers(1, MOST_LINES / ways).collect();
    let shape = Shape::of_sets(rng.pick(&sets), line, ways);
    let (write_policy, write_alloc) = writes;
    CacheConfig { replacement, write_policy, write_alloc, ..shapes::dressed(rng, shape, shapes::small_latency) }
}

impl Opening {
    fn of(rng: &mut Rng, config: CacheConfig, end: End) -> Self {
        let set = rng.below(config.num_sets() as u64);
        let mut opening = Self { config, ram_len: 0, set, filled: 0, met: MET_SHORT, rounds: 1 };
        let (line, ways) = (opening.config.line_size as u64, opening.config.associativity as u64);
        let part = 1 + rng.below(line - 1);
        let cut = opening.line(set, ways + CUT);
        let len = match end {
            End::InLine => cut + part,
            End::AtLine => cut,
            End::Past => opening.line(0, 2 * opening.tags()),
            End::Short => rng.pick(&[0, part]),
        };
        opening.ram_len = len as u32;
        if !matches!(end, End::Short) {
            // Lines of equal frequencies must meet, and not in the order in which they came.
            let again = opening.config.replacement == ReplacementPolicy::Lfu;
            opening.filled = if again { 2 * ways } else { ways };
            (opening.met, opening.rounds) = if ways <= FEW_WAYS { (MET_TWICE, 2) } else { (MET, 1) };
        }
        opening
    }

    /// How many records follow the opening; between rounds there is one that clears the level.
    pub fn records(&self) -> u64 {
        self.rounds * (self.filled + self.met + 1) - 1
    }

    /// The operation of this record.
    pub fn op(&self, rng: &mut Rng, level: &Level, number: u64) -> Op {
        let at = number % (self.filled + self.met + 1);
        if at == self.filled + self.met {
            rng.pick(&[Op::Flush, Op::Invalidate])
        } else if at < self.filled {
            self.fill(rng, at)
        } else if rng.below(14) == 0 {
            self.service(rng, level)
        } else {
            let addr = self.address(rng, level);
            let kind = rng.pick(&[Kind::ReadRo, Kind::ReadRw, Kind::ReadRw, Kind::Store, Kind::Store, Kind::Store]);
            self.access(rng, kind, addr)
        }
    }

    fn tags(&self) -> u64 {
        self.config.associativity as u64 + MORE
    }

    /// Where a set's line begins.
    fn line(&self, set: u64, tag: u64) -> u64 {
        (tag * self.config.num_sets() as u64 + set) * self.config.line_size as u64
    }

    /// A byte of a set's line, the first as often as all others.
    fn byte(&self, rng: &mut Rng, set: u64, tag: u64) -> u32 {
        let offset = rng.below(self.config.line_size as u64);
        (self.line(set, tag) + rng.pick(&[0, offset])) as u32
    }

    /// An access that brings in the set's next line; after the last, from there back, one that meets a line again.
    fn fill(&self, rng: &mut Rng, at: u64) -> Op {
        let ways = self.config.associativity as u64;
        let tag = if at < ways { at } else { 2 * ways - 1 - at };
        let kinds: &[Kind] = match self.config.write_alloc {
            WriteAllocPolicy::WriteAllocate => &[Kind::ReadRo, Kind::ReadRw, Kind::Store, Kind::Store],
            WriteAllocPolicy::NoWriteAllocate => &[Kind::ReadRo, Kind::ReadRw],
        };
        let addr = self.byte(rng, self.set, tag);
        let kind = rng.pick(kinds);
        self.access(rng, kind, addr)
    }

    /// An access of this kind; a store is of any width that makes it one access, and the most as often as all others.
    fn access(&self, rng: &mut Rng, kind: Kind, addr: u32) -> Op {
        let one = |width: &u8| is_one_access(&self.config, addr, *width);
        let widths: Vec<u8> = [1, 2, 4].into_iter().filter(one).collect();
        let (any, most) = (rng.pick(&widths), widths[widths.len() - 1]);
        Op::Access(match kind {
            Kind::Store => Access { kind, width: rng.pick(&[any, most]), addr, value: rng.draw() as u32 },
            Kind::ReadRo | Kind::ReadRw => Access { kind, width: 1, addr, value: 0 },
        })
    }

    /// Mostly one line is forgotten, seldom all, so that the set stays full.
    fn service(&self, rng: &mut Rng, level: &Level) -> Op {
        match rng.below(16) {
            0 => Op::Flush,
            1 => Op::Invalidate,
            2..=6 => Op::WriteBack,
            7 | 8 => Op::InvalidateLine(self.any_byte(rng, self.set)),
            _ => Op::InvalidateLine(self.byte_of_held(rng, level, true)),
        }
    }

    fn any_byte(&self, rng: &mut Rng, set: u64) -> u32 {
        let tag = rng.below(self.tags());
        self.byte(rng, set, tag)
    }

    /// In a line that the set lacks or one that it has, in any set, about RAM's end, or among the highest.
    fn address(&self, rng: &mut Rng, level: &Level) -> u32 {
        match rng.below(32) {
            0..=11 => self.byte_of_held(rng, level, false),
            12..=20 => self.byte_of_held(rng, level, true),
            21..=22 => {
                let set = rng.below(self.config.num_sets() as u64);
                self.any_byte(rng, set)
            }
            23..=30 => self.ram_len.wrapping_sub(4).wrapping_add(rng.below(6) as u32),
            _ => u32::MAX - rng.below(8) as u32,
        }
    }

    /// A byte of a line that the level holds, or that it does not; of any line if there is none.
    fn byte_of_held(&self, rng: &mut Rng, level: &Level, held: bool) -> u32 {
        let fits = |&tag: &u64| level.holds(self.line(self.set, tag) as u32) == held;
        let tags: Vec<u64> = (0..self.tags()).filter(fits).collect();
        if tags.is_empty() {
            return self.any_byte(rng, self.set);
        }
        let tag = rng.pick(&tags);
        self.byte(rng, self.set, tag)
    }
}
