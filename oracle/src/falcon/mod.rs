//! Shim: the modules of `falcon` that the carried files name.

pub mod cache;
pub mod errors;
pub mod memory;
pub mod mmu;
