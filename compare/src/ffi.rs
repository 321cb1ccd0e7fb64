//! The C ABI of the static library, and a safe wrapper for each function.
//!
//! Safe because the library answers every input with a number and stays inside what it is lent.

/// A configuration, with policies by number.
#[repr(C)]
#[derive(Clone, Copy, Debug, PartialEq, Eq)]
pub struct CacheConfig {
    pub size: u64,
    pub line_size: u64,
    pub associativity: u64,
    pub replacement: u8,
    pub write_policy: u8,
    pub write_alloc: u8,
    pub inclusion: u8,
    pub hit_latency: u64,
    pub miss_penalty: u64,
    pub assoc_penalty: u64,
    pub transfer_width: u32,
}

/// A load's answer: number, place and byte.
#[repr(C)]
#[derive(Clone, Copy, Debug, PartialEq, Eq)]
pub struct Loaded {
    pub no: u8,
    pub place: u32,
    pub value: u8,
}

/// A store's answer: number and place.
#[repr(C)]
#[derive(Clone, Copy, Debug, PartialEq, Eq)]
pub struct Stored {
    pub no: u8,
    pub place: u32,
}

/// A set's own part: its orders, the front first and zeros past the ways, its random state and its hand.
#[repr(C)]
#[derive(Clone, Copy, Debug, PartialEq, Eq)]
pub struct CacheSet {
    pub lru_order: [u8; 16],
    pub fifo_order: [u8; 16],
    pub rand_state: u32,
    pub clock_hand: u8,
}

/// What a line's use leaves in it.
#[repr(C)]
#[derive(Clone, Copy, Debug, PartialEq, Eq)]
pub struct LineUse {
    pub freq: u64,
    pub ref_bit: bool,
}

/// A way where there is one, else 0.
#[repr(C)]
#[derive(Clone, Copy, Debug, PartialEq, Eq)]
pub struct Found {
    pub found: bool,
    pub way: usize,
}

/// A victim's answer: number, way, and the set after the choice.
#[repr(C)]
#[derive(Clone, Copy, Debug, PartialEq, Eq)]
pub struct Chosen {
    pub no: u8,
    pub way: usize,
    pub set: CacheSet,
}

/// Declares each function and its wrapper from one line: the wrapper's name, the symbol, the first arguments if there
/// are any, the lent slices in brackets (which cross as pointer and length) and the other arguments. Every slice is
/// lent to be written, so that a write where none belongs is seen.
macro_rules! functions {
    ($($(#[$doc:meta])* $name:ident = $symbol:ident $(($($first:ident: $first_kind:ty),*))?
        [$($lent:ident: $of:ty),*]($($arg:ident: $kind:ty),*) -> $out:ty;)*) => {
        extern "C" {
            $(fn $symbol($($($first: $first_kind,)*)? $($lent: *mut $of, _: usize,)* $($arg: $kind),*) -> $out;)*
        }
        $($(#[$doc])*
        pub fn $name($($($first: $first_kind,)*)? $($lent: &mut [$of],)* $($arg: $kind),*) -> $out {
            unsafe { $symbol($($($first,)*)? $($lent.as_mut_ptr(), $lent.len(),)* $($arg),*) }
        })*
    };
}

functions! {
    /// The byte at `addr`.
    ram_load8 = tg_ram_load8[ram: u8](addr: u32) -> Loaded;
    /// A byte to `addr`.
    ram_store8 = tg_ram_store8[ram: u8](addr: u32, value: u8) -> Stored;
    /// Two bytes from `addr` on, the low one first.
    ram_store16 = tg_ram_store16[ram: u8](addr: u32, value: u16) -> Stored;
    /// Four bytes from `addr` on, the low one first.
    ram_store32 = tg_ram_store32[ram: u8](addr: u32, value: u32) -> Stored;

    /// The stock configuration.
    config_default = tg_config_default[]() -> CacheConfig;
    /// 0, or the first reason of 1 to 9.
    config_validate = tg_config_validate[](c: CacheConfig) -> u8;
    /// Whether no reason applies.
    config_is_valid_config = tg_config_is_valid_config[](c: CacheConfig) -> bool;
    /// Whether the port serves it; the Rust has no such limits.
    config_within_limits = tg_config_within_limits[](c: CacheConfig) -> bool;
    /// The number of sets.
    config_num_sets = tg_config_num_sets[](c: CacheConfig) -> u64;
    /// Address bits of the place in a line.
    config_offset_bits = tg_config_offset_bits[](c: CacheConfig) -> u32;
    /// Address bits of the set.
    config_index_bits = tg_config_index_bits[](c: CacheConfig) -> u32;
    /// The address's tag.
    config_addr_tag = tg_config_addr_tag[](c: CacheConfig, addr: u32) -> u32;
    /// The address's set.
    config_addr_index = tg_config_addr_index[](c: CacheConfig, addr: u32) -> u64;
    /// The address's place in its line.
    config_addr_offset = tg_config_addr_offset[](c: CacheConfig, addr: u32) -> u64;
    /// The first address of its line.
    config_line_base = tg_config_line_base[](c: CacheConfig, addr: u32) -> u32;
    /// Cycles of a tag search.
    config_tag_search_cycles = tg_config_tag_search_cycles[](c: CacheConfig) -> u64;
    /// Cycles of a line's transfer.
    config_line_transfer_cycles = tg_config_line_transfer_cycles[](c: CacheConfig) -> u64;

    /// A fresh set; more than 16 ways count as 16.
    set_new = tg_set_new[](ways: usize) -> CacheSet;
    /// The lowest valid way with the tag.
    set_lookup = tg_set_lookup[tags: u32, valid: bool](tag: u32) -> Found;
    /// The lowest invalid way.
    set_free_way = tg_set_free_way[valid: bool]() -> Found;
    /// What a hit on the way moves in the set.
    set_touch = tg_set_touch[](set: CacheSet, way: u8, policy: u8) -> CacheSet;
    /// What a line that comes into the way moves in the set.
    set_install = tg_set_install[](set: CacheSet, way: u8, policy: u8) -> CacheSet;
    /// What a hit leaves in the line.
    line_touch = tg_line_touch[](line: LineUse, policy: u8) -> LineUse;
    /// What a line has that has just come in.
    line_installed = tg_line_installed[]() -> LineUse;
    /// The way that makes room: 0 and the way, or 24 where set and lengths do not fit or no policy has the number.
    set_find_victim = tg_set_find_victim(set: CacheSet, policy: u8)[valid: bool, freq: u64, ref_bits: bool]() -> Chosen;
}
