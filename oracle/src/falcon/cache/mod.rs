//! Shim: the names that `cache.rs` and `config.rs` take from their parent.

pub mod cache;
pub mod config;

pub use crate::capability::cache::{
    CacheInclusionPolicy as InclusionPolicy, CacheReplacementPolicy as ReplacementPolicy,
    CacheWriteAllocation as WriteAllocPolicy, CacheWritePolicy as WritePolicy,
};
pub use cache::{Cache, CacheLine, CacheLineView, CacheSet, CacheSetView};
pub use config::CacheConfig;

/// The eight counters that `cache.rs` moves; all start at 0.
#[derive(Clone, Debug, Default, PartialEq, Eq)]
pub struct CacheStats {
    pub hits: u64,
    pub misses: u64,
    pub evictions: u64,
    pub writebacks: u64,
    pub bytes_loaded: u64,
    pub bytes_stored: u64,
    pub total_cycles: u64,
    pub ram_write_bytes: u64,
}
