//! Shim: the two errors that the carried files make.

#[derive(Clone, Debug, PartialEq, Eq)]
pub enum FalconError {
    Bus(String),
    Trap { cause: u32, tval: u32, vaddr: u32 },
}
