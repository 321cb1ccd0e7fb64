//! The cache simulator of Raven-RiscV, unchanged, as the judge of the port.
//!
//! Shim: the module tree. The README says which files are carried and which are shims.

pub mod capability;
pub mod falcon;
