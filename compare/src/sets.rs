//! A set's rules against `CacheSet` of cache.rs: after each operation its answer, and all that the set and its lines
//! hold.

use crate::ffi::{self, Chosen, Found, LineUse};
use crate::rand_state;
use crate::rng::Rng;
use crate::run::{same, Difference, Outcome, Run};
use crate::set_shapes::{self, LINE};
use crate::shapes::{MOST_WAYS, REPLACEMENTS};
use oracle::falcon::cache::{CacheSet, ReplacementPolicy};

const MOST: usize = MOST_WAYS as usize;

/// A set as a level of the port holds it: the port's own part and the lines' tags and marks. Past the ways all is 0.
#[derive(Clone, Copy, Debug, PartialEq, Eq)]
pub struct PortSet {
    pub ways: usize,
    pub set: ffi::CacheSet,
    pub tags: [u32; MOST],
    pub valid: [bool; MOST],
    pub freq: [u64; MOST],
    pub ref_bits: [bool; MOST],
}

/// One entry for each way, then zeros.
fn padded<T: Copy + Default>(entries: impl Iterator<Item = T>) -> [T; MOST] {
    let mut all = [T::default(); MOST];
    for (way, entry) in entries.enumerate() {
        all[way] = entry;
    }
    all
}

impl PortSet {
    /// All that a set of the Rust holds.
    pub fn of(rust: &CacheSet) -> Self {
        Self {
            ways: rust.lines.len(),
            set: ffi::CacheSet {
                lru_order: padded(rust.lru_order.iter().map(|&way| way as u8)),
                fifo_order: padded(rust.fifo_order.iter().map(|&way| way as u8)),
                rand_state: rand_state::of(rust),
                clock_hand: rust.clock_hand as u8,
            },
            tags: padded(rust.lines.iter().map(|line| line.tag)),
            valid: padded(rust.lines.iter().map(|line| line.valid)),
            freq: padded(rust.lines.iter().map(|line| line.freq)),
            ref_bits: padded(rust.lines.iter().map(|line| line.ref_bit)),
        }
    }

    /// The port's fresh set, with lines that were never used.
    fn fresh(ways: usize) -> Self {
        Self {
            ways,
            set: ffi::set_new(ways),
            tags: [0; MOST],
            valid: [false; MOST],
            freq: [0; MOST],
            ref_bits: [false; MOST],
        }
    }

    fn lookup(&mut self, tag: u32) -> Found {
        ffi::set_lookup(&mut self.tags[..self.ways], &mut self.valid[..self.ways], tag)
    }

    fn free_way(&mut self) -> Found {
        ffi::set_free_way(&mut self.valid[..self.ways])
    }

    fn find_victim(&mut self, policy: u8) -> Chosen {
        let (valid, freq) = (&mut self.valid[..self.ways], &mut self.freq[..self.ways]);
        let chosen = ffi::set_find_victim(self.set, policy, valid, freq, &mut self.ref_bits[..self.ways]);
        self.set = chosen.set;
        chosen
    }

    fn touch(&mut self, way: usize, policy: u8) {
        let line = LineUse { freq: self.freq[way], ref_bit: self.ref_bits[way] };
        self.mark(way, ffi::line_touch(line, policy));
        self.set = ffi::set_touch(self.set, way as u8, policy);
    }

    fn install(&mut self, way: usize, tag: u32, policy: u8) {
        self.tags[way] = tag;
        self.valid[way] = true;
        self.mark(way, ffi::line_installed());
        self.set = ffi::set_install(self.set, way as u8, policy);
    }

    fn mark(&mut self, way: usize, line: LineUse) {
        self.freq[way] = line.freq;
        self.ref_bits[way] = line.ref_bit;
    }
}

/// One operation; the last two are a level's own, the same on both sides.
#[derive(Clone, Copy, Debug)]
pub enum Op {
    Lookup(u32),
    FreeWay,
    FindVictim,
    Touch(usize),
    Install(usize, u32),
    Invalidate(usize),
    Validate(usize),
}

#[derive(Clone, Copy, Debug, PartialEq, Eq)]
pub enum Answer {
    Nothing,
    Found(Found),
    Victim { no: u8, way: usize },
}

impl From<Option<usize>> for Found {
    fn from(way: Option<usize>) -> Self {
        Found { found: way.is_some(), way: way.unwrap_or(0) }
    }
}

impl Op {
    /// The Rust's answer.
    pub fn in_rust(self, policy: ReplacementPolicy, set: &mut CacheSet) -> Answer {
        match self {
            Op::Lookup(tag) => return Answer::Found(set.lookup(tag).into()),
            Op::FreeWay => return Answer::Found(free_way_in_rust(set).into()),
            Op::FindVictim => return Answer::Victim { no: 0, way: set.find_victim(policy) },
            Op::Touch(way) => set.touch(way, policy),
            Op::Install(way, tag) => set.install(way, tag, vec![0; LINE], policy),
            Op::Invalidate(way) => set.lines[way].valid = false,
            Op::Validate(way) => set.lines[way].valid = true,
        }
        Answer::Nothing
    }

    fn in_port(self, policy: ReplacementPolicy, set: &mut PortSet) -> Answer {
        let policy = policy as u8;
        match self {
            Op::Lookup(tag) => return Answer::Found(set.lookup(tag)),
            Op::FreeWay => return Answer::Found(set.free_way()),
            Op::FindVictim => {
                let Chosen { no, way, .. } = set.find_victim(policy);
                return Answer::Victim { no, way };
            }
            Op::Touch(way) => set.touch(way, policy),
            Op::Install(way, tag) => set.install(way, tag, policy),
            Op::Invalidate(way) => set.valid[way] = false,
            Op::Validate(way) => set.valid[way] = true,
        }
        Answer::Nothing
    }

    /// An operation by draw. Lines come in where the last victim was as often as elsewhere, so that sets fill.
    fn drawn(rng: &mut Rng, ways: usize, last_victim: usize) -> Self {
        let (way, tag) = (rng.below(ways as u64) as usize, set_shapes::tag(rng));
        let into = rng.pick(&[way, last_victim]);
        match rng.below(20) {
            0..=2 => Op::Lookup(tag),
            3 => Op::FreeWay,
            4..=8 => Op::FindVictim,
            9..=13 => Op::Touch(way),
            14..=17 => Op::Install(into, tag),
            18 => Op::Invalidate(way),
            _ => Op::Validate(into),
        }
    }
}

/// The Rust has no such function, but `find_victim` gives an invalid line's way first, and then moves nothing.
fn free_way_in_rust(set: &mut CacheSet) -> Option<usize> {
    let full = set.lines.iter().all(|line| line.valid);
    (!full).then(|| set.find_victim(ReplacementPolicy::Lru))
}

/// One set on both sides.
struct Sides {
    rust: CacheSet,
    port: PortSet,
}

impl Sides {
    fn fresh(ways: usize) -> Self {
        Self { rust: CacheSet::new(ways, LINE), port: PortSet::fresh(ways) }
    }

    fn made(rng: &mut Rng, ways: usize, hand: usize) -> Self {
        let rust = set_shapes::any(rng, ways, hand);
        Self { port: PortSet::of(&rust), rust }
    }

    fn both(&mut self, op: Op, policy: ReplacementPolicy) -> Result<Answer, Difference> {
        let input = (op, policy, self.port);
        let rust = op.in_rust(policy, &mut self.rust);
        let port = op.in_port(policy, &mut self.port);
        same("set", &input, (rust, PortSet::of(&self.rust)), (port, self.port))?;
        Ok(rust)
    }

    /// Operations by draw, one after the other, each under one of the policies.
    fn sequence(&mut self, rng: &mut Rng, policies: &[ReplacementPolicy], ops: u64) -> Outcome {
        let mut last_victim = 0;
        for _ in 0..ops {
            let op = Op::drawn(rng, self.port.ways, last_victim);
            if let Answer::Victim { way, .. } = self.both(op, rng.pick(policies))? {
                last_victim = way;
            }
        }
        Ok(ops)
    }
}

/// Sequences for each number of ways under each policy, and under all of them by turns.
fn sequences(run: &Run, count: u64, ops: u64, start: fn(&mut Rng, usize, u64) -> Sides) -> Outcome {
    let mut rng = Rng::new(run.seed);
    let mut cases = 0;
    for policies in REPLACEMENTS.chunks(1).chain([&REPLACEMENTS[..]]) {
        for ways in 1..=MOST {
            for n in 0..run.scale * count {
                cases += start(&mut rng, ways, n).sequence(&mut rng, policies, ops)?;
            }
        }
    }
    Ok(cases)
}

/// A hand-made set; the hand is at each way by turns.
fn made(rng: &mut Rng, ways: usize, n: u64) -> Sides {
    Sides::made(rng, ways, n as usize % ways)
}

/// Long sequences from fresh sets.
pub fn from_fresh(run: &Run) -> Outcome {
    sequences(run, 10, 300, |_, ways, _| Sides::fresh(ways))
}

/// Shorter ones from hand-made sets, at least one from each place of the hand.
pub fn from_made(run: &Run) -> Outcome {
    sequences(run, 24, 200, made)
}

/// One operation on each of many hand-made sets.
pub fn single(run: &Run) -> Outcome {
    sequences(run, 1_000, 1, made)
}

/// Fresh sets: those of more than 16 ways by the rule alone.
pub fn fresh(_: &Run) -> Outcome {
    let most = Sides::fresh(MOST).port.set;
    let mut cases = 0;
    for ways in 0..=MOST {
        same("set_new", &ways, PortSet::of(&CacheSet::new(ways, LINE)), PortSet::fresh(ways))?;
        cases += 1;
    }
    for ways in [MOST + 1, 255, 256, usize::MAX] {
        same("set_new", &ways, most, ffi::set_new(ways))?;
        cases += 1;
    }
    Ok(cases)
}

/// A victim that is asked for, with lines of any length.
#[derive(Clone, Debug, PartialEq, Eq)]
struct Asked {
    set: ffi::CacheSet,
    policy: u8,
    valid: Vec<bool>,
    freq: Vec<u64>,
    ref_bits: Vec<bool>,
}

impl Asked {
    fn of(port: &PortSet, policy: ReplacementPolicy) -> Self {
        Self {
            set: port.set,
            policy: policy as u8,
            valid: port.valid[..port.ways].to_vec(),
            freq: port.freq[..port.ways].to_vec(),
            ref_bits: port.ref_bits[..port.ways].to_vec(),
        }
    }

    /// The rule: 24, way 0, and everything as it was.
    fn is_refused(&self) -> Result<(), Difference> {
        let mut lent = self.clone();
        let Asked { set, policy, valid, freq, ref_bits } = &mut lent;
        let port = ffi::set_find_victim(*set, *policy, valid, freq, ref_bits);
        same("find_victim refused", self, (Chosen { no: 24, way: 0, set: self.set }, self), (port, &lent))
    }

    fn but(&self, change: impl Fn(&mut Asked)) -> Self {
        let mut spoiled = self.clone();
        change(&mut spoiled);
        spoiled
    }

    /// An entry that is no way, or another entry once more, in either order.
    fn bad_orders(&self) -> Vec<Self> {
        let ways = self.valid.len();
        let mut all = Vec::new();
        for at in 0..ways {
            for bad in [ways as u8, 16, 128, 255] {
                all.push(self.but(|asked| asked.set.lru_order[at] = bad));
                all.push(self.but(|asked| asked.set.fifo_order[at] = bad));
            }
            for other in (0..ways).filter(|&other| other != at) {
                all.push(self.but(|asked| asked.set.lru_order[at] = asked.set.lru_order[other]));
                all.push(self.but(|asked| asked.set.fifo_order[at] = asked.set.fifo_order[other]));
            }
        }
        all
    }

    /// Some or all of the lines' marks of another length.
    fn bad_lengths(&self) -> Vec<Self> {
        let ways = self.valid.len();
        let mut all = Vec::new();
        for len in [0, ways - 1, ways + 1, MOST + 1] {
            // All marks of one way less may fit the set.
            let most = if len == 0 || len > ways { 7 } else { 6 };
            for which in 1..=most {
                all.push(self.but(|asked| asked.resize(which, len)));
            }
        }
        all
    }

    fn resize(&mut self, which: u8, len: usize) {
        if which & 1 != 0 {
            self.valid.resize(len, true);
        }
        if which & 2 != 0 {
            self.freq.resize(len, 1);
        }
        if which & 4 != 0 {
            self.ref_bits.resize(len, true);
        }
    }

    /// Everything that makes the question one to refuse, a single thing at a time.
    fn spoiled(&self) -> Vec<Self> {
        let unknown = UNKNOWN.map(|number| self.but(|asked| asked.policy = number));
        let hands = (self.valid.len() as u8..=255).map(|hand| self.but(|asked| asked.set.clock_hand = hand));
        unknown.chain(hands).chain(self.bad_orders()).chain(self.bad_lengths()).collect()
    }
}

/// The numbers that name no policy.
const UNKNOWN: std::ops::RangeInclusive<u8> = REPLACEMENTS.len() as u8..=255;

/// No policy of this number: a touch and an install move nothing.
fn moves_nothing(port: &PortSet, way: usize, number: u8) -> Result<(), Difference> {
    let line = LineUse { freq: port.freq[way], ref_bit: port.ref_bits[way] };
    let wanted = (port.set, port.set, line);
    let touched = ffi::set_touch(port.set, way as u8, number);
    let installed = ffi::set_install(port.set, way as u8, number);
    same("unknown policy", &(way, number, port), wanted, (touched, installed, ffi::line_touch(line, number)))
}

/// Policies that are none, and sets that do not fit, by the rule alone: nothing is touched.
pub fn refused(run: &Run) -> Outcome {
    let mut rng = Rng::new(run.seed);
    let mut cases = 0;
    for policy in REPLACEMENTS {
        for ways in 1..=MOST {
            let hand = rng.below(ways as u64) as usize;
            let port = Sides::made(&mut rng, ways, hand).port;
            for asked in Asked::of(&port, policy).spoiled() {
                asked.is_refused()?;
                cases += 1;
            }
            for number in UNKNOWN {
                moves_nothing(&port, hand, number)?;
                cases += 1;
            }
        }
    }
    Ok(cases)
}
