//! The configuration against config.rs: its verdict, its helpers, the stock one; and the port's limits by their rule.

use crate::ffi;
use crate::rng::Rng;
use crate::run::{same, Difference, Outcome, Run};
use crate::shapes::{self, Shape, INCLUSIONS, MOST_LATENCY};
use oracle::falcon::cache::CacheConfig;

/// The port's form of a configuration: policies by their order in capability/cache.rs.
pub fn numbers(c: &CacheConfig) -> ffi::CacheConfig {
    ffi::CacheConfig {
        size: c.size as u64,
        line_size: c.line_size as u64,
        associativity: c.associativity as u64,
        replacement: c.replacement as u8,
        write_policy: c.write_policy as u8,
        write_alloc: c.write_alloc as u8,
        inclusion: c.inclusion as u8,
        hit_latency: c.hit_latency,
        miss_penalty: c.miss_penalty,
        assoc_penalty: c.assoc_penalty,
        transfer_width: c.transfer_width,
    }
}

/// How the Rust's message begins and what it holds, for reasons 1 to 9; exactly one row fits a message.
const MESSAGES: [(&str, &str); 9] = [
    ("Size must be", ""),
    ("Line size must be", ""),
    ("Associativity must be", ""),
    ("Line size ", "is not a power of 2 (try"),
    ("", "overflows usize"),
    ("", "need"),
    ("", "not divisible"),
    ("", "sets is not a power of 2"),
    ("Inclusive and Exclusive", ""),
];

/// The Rust's verdict by number: 0, or the reason that its message tells.
pub fn reason(c: &CacheConfig) -> u8 {
    let Err(message) = c.validate() else { return 0 };
    let fits = |row: &(&str, &str)| message.starts_with(row.0) && message.contains(row.1);
    let reason = MESSAGES.iter().position(fits).map(|i| i + 1);
    reason.unwrap_or_else(|| panic!("a message of no reason: {message}")) as u8
}

/// A helper under its name: the Rust's answer and the port's.
pub struct Helper {
    name: &'static str,
    pub rust: fn(&CacheConfig, u32) -> u64,
    port: fn(ffi::CacheConfig, u32) -> u64,
}

const fn helper(
    name: &'static str,
    rust: fn(&CacheConfig, u32) -> u64,
    port: fn(ffi::CacheConfig, u32) -> u64,
) -> Helper {
    Helper { name, rust, port }
}

/// The seven that place an address, then the two that count cycles; the vectors show them in this order.
pub const HELPERS: [Helper; 9] = [
    helper("num_sets", |c, _| c.num_sets() as u64, |c, _| ffi::config_num_sets(c)),
    helper("offset_bits", |c, _| c.offset_bits().into(), |c, _| ffi::config_offset_bits(c).into()),
    helper("index_bits", |c, _| c.index_bits().into(), |c, _| ffi::config_index_bits(c).into()),
    helper("addr_tag", |c, a| c.addr_tag(a).into(), |c, a| ffi::config_addr_tag(c, a).into()),
    helper("addr_index", |c, a| c.addr_index(a) as u64, ffi::config_addr_index),
    helper("addr_offset", |c, a| c.addr_offset(a) as u64, ffi::config_addr_offset),
    helper("line_base", |c, a| c.line_base(a).into(), |c, a| ffi::config_line_base(c, a).into()),
    helper("tag_search_cycles", |c, _| c.tag_search_cycles(), |c, _| ffi::config_tag_search_cycles(c)),
    helper("line_transfer_cycles", |c, _| c.line_transfer_cycles(), |c, _| ffi::config_line_transfer_cycles(c)),
];
const CYCLES: &[Helper] = HELPERS.split_at(7).1;

/// The verdict, if both sides give the same one.
fn both_validate(c: &CacheConfig) -> Result<u8, Difference> {
    let n = numbers(c);
    let rust = (reason(c), c.is_valid_config());
    let port = (ffi::config_validate(n), ffi::config_is_valid_config(n));
    same("validate, is_valid_config", c, rust, port)?;
    Ok(rust.0)
}

fn both_help(helpers: &[Helper], c: &CacheConfig, addr: u32) -> Result<(), Difference> {
    let n = numbers(c);
    for h in helpers {
        same(h.name, &(c, addr), (h.rust)(c, addr), (h.port)(n, addr))?;
    }
    Ok(())
}

/// The stock configuration, field by field.
pub fn stock(_: &Run) -> Outcome {
    same("default", &(), numbers(&CacheConfig::default()), ffi::config_default())?;
    Ok(1)
}

/// Every small shape, under each inclusion.
pub fn validate_small(_: &Run) -> Outcome {
    let mut cases = 0;
    for size in 0..=700 {
        for line in 0..=40 {
            for ways in 0..=20 {
                for inclusion in INCLUSIONS {
                    both_validate(&CacheConfig { inclusion, ..Shape { size, line, ways }.config() })?;
                    cases += 1;
                }
            }
        }
    }
    Ok(cases)
}

/// Shapes of any magnitude. Every verdict must come up, or the draws would show too little.
pub fn validate_random(run: &Run) -> Outcome {
    let mut rng = Rng::new(run.seed);
    let mut seen = [0u64; 10];
    for _ in 0..run.scale * 1_000_000 {
        seen[both_validate(&shapes::to_validate(&mut rng))? as usize] += 1;
    }
    assert!(!seen.contains(&0), "draws of each verdict: {seen:?}");
    Ok(seen.iter().sum())
}

/// All nine helpers on every valid shape within the limits.
pub fn helpers(run: &Run) -> Outcome {
    let mut rng = Rng::new(run.seed);
    let mut cases = 0;
    for shape in shapes::within_limits() {
        for _ in 0..8 {
            let c = shapes::dressed(&mut rng, shape, shapes::small_latency);
            let mut addresses = shapes::edge_addresses(&c);
            addresses.extend((0..run.scale * 32).map(|_| rng.draw() as u32));
            for &addr in &addresses {
                both_help(&HELPERS, &c, addr)?;
            }
            cases += addresses.len() as u64;
        }
    }
    Ok(cases)
}

/// The cycles of valid shapes of any magnitude, whose sums may wrap.
pub fn cycles(run: &Run) -> Outcome {
    let mut rng = Rng::new(run.seed);
    let cases = run.scale * 200_000;
    for _ in 0..cases {
        let shape = shapes::valid(&mut rng);
        both_help(CYCLES, &shapes::dressed(&mut rng, shape, shapes::any_latency), 0)?;
    }
    Ok(cases)
}

/// A field with a limit of its own: how to set it, its limit, and the most that it can hold.
type Limited = (fn(&mut ffi::CacheConfig, u64), u64, u64);

const LIMITED: [Limited; 6] = [
    (|c, x| c.hit_latency = x, MOST_LATENCY, u64::MAX),
    (|c, x| c.miss_penalty = x, MOST_LATENCY, u64::MAX),
    (|c, x| c.assoc_penalty = x, MOST_LATENCY, u64::MAX),
    (|c, x| c.replacement = x as u8, 5, 255),
    (|c, x| c.write_policy = x as u8, 1, 255),
    (|c, x| c.write_alloc = x as u8, 1, 255),
];

/// `within_limits` says true up to each limit and false one past it.
pub fn limits(run: &Run) -> Outcome {
    let mut rng = Rng::new(run.seed);
    let mut cases = 0;
    let mut expect = |c: ffi::CacheConfig, within: bool| {
        cases += 1;
        same("within_limits", &c, within, ffi::config_within_limits(c))
    };
    for shape in shapes::within_limits() {
        let drawn = numbers(&shapes::dressed(&mut rng, shape, shapes::small_latency));
        expect(drawn, true)?;
        for (set, limit, most) in LIMITED {
            for (x, within) in [(limit, true), (limit + 1, false), (most, false)] {
                let mut c = drawn;
                set(&mut c, x);
                expect(c, within)?;
            }
        }
    }
    for shape in shapes::past_limits() {
        expect(numbers(&shapes::dressed(&mut rng, shape, shapes::small_latency)), false)?;
    }
    Ok(cases)
}
