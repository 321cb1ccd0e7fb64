//! Shim: the types that the `Bus` trait names; nothing here translates.

#[derive(Clone, Copy, Debug, PartialEq, Eq)]
pub enum AccessType {
    Fetch,
    Load,
    Store,
}

#[derive(Clone, Copy, Debug, PartialEq, Eq)]
pub struct PageFault {
    pub cause: u32,
    pub vaddr: u32,
}

#[derive(Clone, Copy, Debug, PartialEq, Eq)]
pub enum PrivMode {
    User,
    Supervisor,
    Machine,
}
