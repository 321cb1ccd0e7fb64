//! Fixed lists of inputs with the Rust's answers, for a replay with no Rust at hand. Nothing here asks the port.

use crate::config::{numbers, reason, HELPERS};
use crate::control::{self, Access, Level};
use crate::control_shapes::{self, Opening};
use crate::ram::{ram_of, Call, Kind, KINDS};
use crate::rng::Rng;
use crate::set_shapes;
use crate::sets::{Answer, Op, PortSet};
use crate::shapes::{self, Shape, INCLUSIONS, MOST_WAYS, REPLACEMENTS};
use oracle::falcon::cache::{CacheConfig, CacheSet, ReplacementPolicy};
use std::{fs, io, path::Path};

/// Always the same lists.
const SEED: u64 = 1;

/// Records in, a line for each out.
#[derive(Default)]
pub struct Vectors {
    stdin: Vec<u8>,
    stdout: String,
}

impl Vectors {
    pub fn write(&self, dir: &Path) -> io::Result<()> {
        fs::create_dir_all(dir)?;
        fs::write(dir.join("stdin"), &self.stdin)?;
        fs::write(dir.join("stdout"), &self.stdout)
    }

    fn record(&mut self, input: &[&[u8]], answer: impl IntoIterator<Item = u64>) {
        self.stdin.extend(input.concat());
        let words: Vec<String> = answer.into_iter().map(|x| x.to_string()).collect();
        self.stdout += &words.join(" ");
        self.stdout.push('\n');
    }
}

/// Every kind on lengths to 8, at each address inside, the first two outside and the highest three.
pub fn ram() -> Vectors {
    let mut all = Vectors::default();
    let mut rng = Rng::new(SEED);
    for kind in KINDS {
        for len in 0..=8 {
            for addr in (0..=u32::from(len) + 1).chain(0xFFFF_FFFD..=0xFFFF_FFFF) {
                let value = rng.draw() as u32 & fitting(kind);
                ram_record(&mut all, len, Call { kind, addr, value });
            }
        }
    }
    all
}

/// The bits of a value that fits the width; a load has none.
fn fitting(kind: Kind) -> u32 {
    match kind {
        Kind::Load8 => 0,
        Kind::Store8 => 0xFF,
        Kind::Store16 => 0xFFFF,
        Kind::Store32 => 0xFFFF_FFFF,
    }
}

/// Kind, length, two zeros, address, value; then number, place, value and the bytes after.
fn ram_record(all: &mut Vectors, len: u8, call: Call) {
    let mut ram = ram_of(&(0..len).map(|i| 17 * (i + 1)).collect::<Vec<u8>>());
    let a = call.in_rust(&mut ram);
    let input: [&[u8]; 3] = [&[call.kind as u8, len, 0, 0], &call.addr.to_le_bytes(), &call.value.to_le_bytes()];
    let answer = [a.no.into(), a.place.into(), a.value.into()];
    all.record(&input, answer.into_iter().chain(ram.as_bytes().iter().map(|&b| b.into())));
}

/// Shapes chosen by hand: for each reason the edges where it begins, and where several apply at once.
const CHOSEN: [(u64, u64, u64); 30] = [
    (0, 3, 0),
    (0, 3, 2),
    (0, 16, 2),
    (1, 0, 0),
    (1024, 3, 2),
    (1024, 4, 0),
    (1024, 5, 0),
    (1024, 5, 2),
    (1024, 24, 2),
    (u64::MAX, u64::MAX, 1),
    (u64::MAX, (1 << 63) + 1, u64::MAX),
    (1024, 4, 1 << 62),
    (u64::MAX, 1 << 63, 2),
    (u64::MAX, 16, u64::MAX),
    (u64::MAX, 4, (1 << 62) - 1),
    (u64::MAX - 4, 4, (1 << 62) - 1),
    (31, 16, 2),
    (1, 4, 1),
    (33, 16, 2),
    (100, 16, 2),
    (u64::MAX, 4, 1),
    (96, 16, 2),
    (96, 32, 1),
    (u64::MAX - 3, 4, 1),
    (4, 4, 1),
    (32, 16, 2),
    (192, 16, 3),
    (4096, 16, 16),
    (65536, 256, 16),
    (1024, 16, 2),
];

/// How many drawn records each reason gets, and how many are valid.
const REFUSED: usize = 12;
const VALID: usize = 120;

/// The chosen shapes, drawn ones for each reason, and valid ones within the limits.
pub fn config() -> Vectors {
    let mut all = Vectors::default();
    let mut rng = Rng::new(SEED);
    config_record(&mut all, &CacheConfig::default(), 0x1234_5678);
    for inclusion in INCLUSIONS {
        for (size, line, ways) in CHOSEN {
            let c = Shape { size, line, ways }.config();
            config_record(&mut all, &CacheConfig { inclusion, ..c }, rng.draw() as u32);
        }
    }
    for wanted in 1..=9 {
        for _ in 0..REFUSED {
            config_record(&mut all, &refused(&mut rng, wanted), rng.draw() as u32);
        }
    }
    let within = shapes::within_limits();
    for _ in 0..VALID {
        let shape = rng.pick(&within);
        let c = shapes::dressed(&mut rng, shape, shapes::small_latency);
        let (edge, any) = (rng.pick(&shapes::edge_addresses(&c)), rng.draw() as u32);
        config_record(&mut all, &c, rng.pick(&[edge, any]));
    }
    all
}

/// A drawn configuration that is refused for this reason.
fn refused(rng: &mut Rng, wanted: u8) -> CacheConfig {
    loop {
        let c = shapes::to_validate(rng);
        if reason(&c) == wanted {
            return c;
        }
    }
}

/// The configuration's 56 bytes, the address, four zeros; then the reason, and after a 0 all nine helpers.
fn config_record(all: &mut Vectors, c: &CacheConfig, addr: u32) {
    let input: [&[u8]; 3] = [&config_bytes(c), &addr.to_le_bytes(), &[0; 4]];
    let reason = reason(c);
    // An invalid configuration has no helpers: the Rust would divide by 0.
    let shown = if reason == 0 { &HELPERS[..] } else { &[] };
    let helped = shown.iter().map(|h| (h.rust)(c, addr));
    all.record(&input, [u64::from(reason)].into_iter().chain(helped));
}

/// The wide fields, the transfer width, the policies.
fn config_bytes(c: &CacheConfig) -> Vec<u8> {
    let n = numbers(c);
    let wide = [n.size, n.line_size, n.associativity, n.hit_latency, n.miss_penalty, n.assoc_penalty];
    let input: [&[u8]; 3] = [
        &wide.map(u64::to_le_bytes).concat(),
        &n.transfer_width.to_le_bytes(),
        &[n.replacement, n.write_policy, n.write_alloc, n.inclusion],
    ];
    input.concat()
}

/// Under each policy for each number of ways a victim of a full set and another operation; then lines alike at the
/// highest frequencies, and lookups among lines with equal tags.
pub fn sets() -> Vectors {
    let mut all = Vectors::default();
    let mut rng = Rng::new(SEED);
    for policy in REPLACEMENTS {
        for ways in 1..=MOST_WAYS as usize {
            let (hand, way) = (rng.below(ways as u64) as usize, rng.below(ways as u64) as usize);
            set_record(&mut all, policy, Op::FindVictim, set_shapes::full(&mut rng, ways, hand));
            let ops = [Op::Touch(way), Op::Lookup(set_shapes::tag(&mut rng)), Op::Install(way, 0), Op::FindVictim];
            let op = ops[(ways + policy as usize) % 4];
            set_record(&mut all, policy, op, set_shapes::any(&mut rng, ways, hand));
        }
    }
    for ways in [1, 2, MOST_WAYS as usize] {
        for freq in [u64::MAX - 1, u64::MAX] {
            let mut record = |policy, op| set_record(&mut all, policy, op, set_shapes::alike(&mut rng, ways, freq));
            record(ReplacementPolicy::Lfu, Op::Touch(ways - 1));
            record(ReplacementPolicy::Lfu, Op::FindVictim);
            record(ReplacementPolicy::Clock, Op::FindVictim);
        }
    }
    for ways in 2..=MOST_WAYS as usize {
        let tag = set_shapes::tag(&mut rng);
        let policy = rng.pick(&REPLACEMENTS);
        set_record(&mut all, policy, Op::Lookup(tag), set_shapes::twins(&mut rng, ways, tag));
    }
    all
}

/// The operation, and the set before it, in 384 bytes; then what the operation answers and moves.
fn set_record(all: &mut Vectors, policy: ReplacementPolicy, op: Op, mut rust: CacheSet) {
    let before = PortSet::of(&rust);
    let answer = op.in_rust(policy, &mut rust);
    all.record(&[&set_bytes(policy, op, &before)], set_answer(op, answer, &PortSet::of(&rust)));
}

/// Operation, policy, ways, way; tag, random state; hand, three zeros; both orders; tags, valid and reference bytes,
/// frequencies, zeros.
fn set_bytes(policy: ReplacementPolicy, op: Op, given: &PortSet) -> Vec<u8> {
    let (kind, way, tag) = match op {
        Op::Lookup(tag) => (0, 0, tag),
        Op::FindVictim => (1, 0, 0),
        Op::Touch(way) => (2, way, 0),
        Op::Install(way, tag) => (3, way, tag),
        _ => unreachable!("no operation of the vectors: {op:?}"),
    };
    let set = &given.set;
    let input: [&[u8]; 10] = [
        &[kind, policy as u8, given.ways as u8, way as u8],
        &tag.to_le_bytes(),
        &set.rand_state.to_le_bytes(),
        &[set.clock_hand, 0, 0, 0],
        &set.lru_order,
        &set.fifo_order,
        &given.tags.map(u32::to_le_bytes).concat(),
        &given.valid.map(u8::from),
        &given.ref_bits.map(u8::from),
        &given.freq.map(u64::to_le_bytes).concat(),
    ];
    let mut bytes = input.concat();
    bytes.resize(384, 0);
    bytes
}

/// Of a lookup whether and where; of a victim its way, the hand, the random state, both orders and the bits; else both
/// orders and the line's marks.
fn set_answer(op: Op, answer: Answer, after: &PortSet) -> Vec<u64> {
    let (ways, set) = (after.ways, &after.set);
    let orders = [&set.lru_order[..ways], &set.fifo_order[..ways]].concat().into_iter().map(u64::from);
    let bits = after.ref_bits[..ways].iter().map(|&bit| u64::from(bit));
    match (op, answer) {
        (_, Answer::Found(found)) => vec![found.found.into(), found.way as u64],
        (_, Answer::Victim { way, .. }) => {
            let first = [way as u64, set.clock_hand.into(), set.rand_state.into()];
            first.into_iter().chain(orders).chain(bits).collect()
        }
        (Op::Touch(way) | Op::Install(way, _), Answer::Nothing) => {
            orders.chain([after.freq[way], after.ref_bits[way].into()]).collect()
        }
        _ => unreachable!("no operation of the vectors: {op:?}"),
    }
}

/// Levels under every policy, each filled in one set where then more lines meet than it has ways.
pub fn control() -> Vectors {
    let mut all = Vectors::default();
    let mut rng = Rng::new(SEED);
    for opening in control_shapes::openings(&mut rng) {
        let mut level = Level::open(opening.config.clone(), opening.ram_len);
        all.record(&[&opening_bytes(&opening)], level.extent());
        for number in 0..opening.records() {
            let op = opening.op(&mut rng, &level, number);
            all.record(&[&control_bytes(op)], level.answer(op));
        }
    }
    all
}

/// The operation that each record of a level tells at byte 60.
const OPEN: u8 = 0;
const ACCESS: u8 = 1;
const FLUSH: u8 = 2;
const WRITE_BACK: u8 = 3;
const INVALIDATE: u8 = 4;
const INVALIDATE_LINE: u8 = 5;

/// The configuration's 56 bytes and RAM's length; then sets and ways.
fn opening_bytes(opening: &Opening) -> Vec<u8> {
    operation(OPEN, &[&config_bytes(&opening.config), &opening.ram_len.to_le_bytes()])
}

/// Kind, width, two zeros, address, value; then number, place, the counters, the line's way from 1 on and dirty mark.
fn control_bytes(op: control::Op) -> Vec<u8> {
    match op {
        control::Op::Access(Access { kind, width, addr, value }) => {
            operation(ACCESS, &[&[kind as u8, width, 0, 0], &addr.to_le_bytes(), &value.to_le_bytes()])
        }
        control::Op::Flush => operation(FLUSH, &[]),
        control::Op::WriteBack => operation(WRITE_BACK, &[]),
        control::Op::Invalidate => operation(INVALIDATE, &[]),
        control::Op::InvalidateLine(addr) => operation(INVALIDATE_LINE, &[&[0; 4], &addr.to_le_bytes()]),
    }
}

/// What the operation is told, zeros up to byte 60, its number, three zeros.
fn operation(number: u8, told: &[&[u8]]) -> Vec<u8> {
    let mut bytes = told.concat();
    bytes.resize(60, 0);
    bytes.extend([number, 0, 0, 0]);
    bytes
}
