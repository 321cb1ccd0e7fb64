//! A level of the Rust with its RAM, and the operations on it that a program with no data replays.

use crate::ram::{ram_of, refused_address};
use oracle::falcon::cache::{Cache, CacheConfig};
use oracle::falcon::errors::FalconError;
use oracle::falcon::memory::{Bus, Ram};

#[derive(Clone, Copy, Debug, PartialEq, Eq)]
pub enum Kind {
    ReadRo,
    ReadRw,
    Store,
}

/// The width is 1, 2 or 4, and 1 of a read; a read has no use for the value.
#[derive(Clone, Copy, Debug)]
pub struct Access {
    pub kind: Kind,
    pub width: u8,
    pub addr: u32,
    pub value: u32,
}

#[derive(Clone, Copy, Debug)]
pub enum Op {
    Access(Access),
    Flush,
    WriteBack,
    Invalidate,
    InvalidateLine(u32),
}

/// Whether the Rust serves bytes at this address as one access, not byte for byte.
pub fn is_one_access(c: &CacheConfig, addr: u32, width: u8) -> bool {
    c.addr_offset(addr) + usize::from(width) <= c.line_size
}

/// `read_byte_ro` of cache.rs line for line, with `allocate_rw` for `allocate_ro`: the data read that the Rust lacks.
fn read_byte_rw(cache: &mut Cache, addr: u32, ram: &mut Ram) -> Result<u8, FalconError> {
    if !cache.config.is_valid_config() {
        return ram.load8(addr);
    }
    let tag = cache.config.addr_tag(addr);
    let idx = cache.config.addr_index(addr);
    let offset = cache.config.addr_offset(addr);

    if let Some(way) = cache.sets[idx].lookup(tag) {
        cache.stats.hits += 1;
        cache.stats.total_cycles += cache.config.tag_search_cycles();
        cache.sets[idx].touch(way, cache.config.replacement);
        return Ok(cache.sets[idx].lines[way].data[offset]);
    }
    cache.stats.misses += 1;
    cache.stats.total_cycles +=
        cache.config.tag_search_cycles() + cache.config.miss_penalty + cache.config.line_transfer_cycles();
    cache.allocate_rw(addr, ram)?;
    let way = cache.sets[idx].lookup(tag).unwrap();
    Ok(cache.sets[idx].lines[way].data[offset])
}

pub struct Level {
    cache: Cache,
    ram: Ram,
}

impl Level {
    /// A fresh level on a fresh RAM, whose bytes tell their address.
    pub fn open(config: CacheConfig, ram_len: u32) -> Self {
        let bytes: Vec<u8> = (0..ram_len).map(|i| (i % 251) as u8).collect();
        Self { cache: Cache::new(config), ram: ram_of(&bytes) }
    }

    /// Sets and ways.
    pub fn extent(&self) -> [u64; 2] {
        [self.cache.sets.len() as u64, self.cache.sets[0].lines.len() as u64]
    }

    pub fn holds(&self, addr: u32) -> bool {
        self.cache.locate(addr).is_some()
    }

    /// Number and place, the eight counters, and where the operation's address is after it.
    pub fn answer(&mut self, op: Op) -> Vec<u64> {
        let done = self.apply(op);
        let (no, place) = done.map_or_else(|e| (23, refused_address(&e)), |()| (0, 0));
        let at = match op {
            Op::Access(Access { addr, .. }) | Op::InvalidateLine(addr) => self.found(addr),
            Op::Flush | Op::WriteBack | Op::Invalidate => [0, 0],
        };
        [no, place.into()].into_iter().chain(self.counters()).chain(at).collect()
    }

    fn apply(&mut self, op: Op) -> Result<(), FalconError> {
        match op {
            Op::Access(access) => return self.access(access),
            Op::Flush => self.cache.flush_to_ram(&mut self.ram),
            Op::WriteBack => self.cache.writeback_dirty(&mut self.ram),
            Op::Invalidate => self.cache.invalidate(),
            Op::InvalidateLine(addr) => self.cache.invalidate_line(addr),
        }
        Ok(())
    }

    fn access(&mut self, access: Access) -> Result<(), FalconError> {
        let Self { cache, ram } = self;
        let Access { kind, width, addr, value } = access;
        assert!(is_one_access(&cache.config, addr, width), "several accesses: {access:?}");
        match (kind, width) {
            (Kind::ReadRo, 1) => cache.read_byte_ro(addr, ram).map(drop),
            (Kind::ReadRw, 1) => read_byte_rw(cache, addr, ram).map(drop),
            (Kind::Store, 1) => cache.write_byte(addr, value as u8, ram),
            (Kind::Store, 2) => cache.write_halfword(addr, value as u16, ram),
            (Kind::Store, 4) => cache.write_word(addr, value, ram),
            _ => unreachable!("no access of this width: {access:?}"),
        }
    }

    fn counters(&self) -> [u64; 8] {
        let s = &self.cache.stats;
        [s.hits, s.misses, s.evictions, s.writebacks, s.bytes_loaded, s.bytes_stored, s.total_cycles, s.ram_write_bytes]
    }

    /// The way that holds the address, from 1 on, and whether its line is dirty; zeros if none does.
    fn found(&self, addr: u32) -> [u64; 2] {
        let Some((set, way)) = self.cache.locate(addr) else { return [0, 0] };
        [way as u64 + 1, self.cache.sets[set].lines[way].dirty.into()]
    }
}
