//! RAM's four functions against `Ram` of memory.rs: number, refused address, value, and every byte after the call.

use crate::ffi::{self, Loaded, Stored};
use crate::rng::Rng;
use crate::run::{same, Difference, Outcome, Run};
use oracle::falcon::errors::FalconError;
use oracle::falcon::memory::{Bus, Ram};
use std::fmt;

/// The longest RAM that the port serves; the Rust has no such limit.
const LONGEST: usize = 16_777_216;

/// The highest addresses, where `addr + 1` would wrap.
const HIGHEST: std::ops::RangeInclusive<u32> = 0xFFFF_FFF8..=0xFFFF_FFFF;

#[derive(Clone, Copy, Debug, PartialEq, Eq)]
pub enum Kind {
    Load8,
    Store8,
    Store16,
    Store32,
}

pub const KINDS: [Kind; 4] = [Kind::Load8, Kind::Store8, Kind::Store16, Kind::Store32];

/// One call; the value's low bytes are stored, and a load has no use for it.
#[derive(Clone, Copy, Debug)]
pub struct Call {
    pub kind: Kind,
    pub addr: u32,
    pub value: u32,
}

// A store has no value of its own, so one answer serves all four functions.
impl From<Stored> for Loaded {
    fn from(s: Stored) -> Self {
        Loaded { no: s.no, place: s.place, value: 0 }
    }
}

impl Call {
    /// The Rust's answer, by number and place.
    pub fn in_rust(self, ram: &mut Ram) -> Loaded {
        let Call { addr, value, .. } = self;
        let done = match self.kind {
            Kind::Load8 => ram.load8(addr),
            Kind::Store8 => ram.store8(addr, value as u8).map(|()| 0),
            Kind::Store16 => ram.store16(addr, value as u16).map(|()| 0),
            Kind::Store32 => ram.store32(addr, value).map(|()| 0),
        };
        match done {
            Ok(value) => Loaded { no: 0, place: 0, value },
            Err(e) => Loaded { no: 23, place: refused_address(&e), value: 0 },
        }
    }

    fn in_port(self, ram: &mut [u8]) -> Loaded {
        let Call { addr, value, .. } = self;
        match self.kind {
            Kind::Load8 => ffi::ram_load8(ram, addr),
            Kind::Store8 => ffi::ram_store8(ram, addr, value as u8).into(),
            Kind::Store16 => ffi::ram_store16(ram, addr, value as u16).into(),
            Kind::Store32 => ffi::ram_store32(ram, addr, value).into(),
        }
    }
}

/// The Rust tells a refused address only in its message.
pub fn refused_address(e: &FalconError) -> u32 {
    let FalconError::Bus(message) = e else { panic!("not a bus error: {e:?}") };
    message
        .strip_prefix("address 0x")
        .and_then(|rest| rest.strip_suffix(" out of bounds"))
        .and_then(|hex| u32::from_str_radix(hex, 16).ok())
        .unwrap_or_else(|| panic!("no address in: {message}"))
}

/// The Rust's RAM with these bytes in it.
pub fn ram_of(bytes: &[u8]) -> Ram {
    let mut ram = Ram::new(bytes.len());
    ram.copy_from_slice(bytes, bytes.len());
    ram
}

/// RAM bytes, of which a long run shows its end only.
#[derive(PartialEq)]
struct Bytes<'a>(&'a [u8]);

impl fmt::Debug for Bytes<'_> {
    fn fmt(&self, f: &mut fmt::Formatter) -> fmt::Result {
        let shown = &self.0[self.0.len().saturating_sub(64)..];
        write!(f, "{} bytes, ending {shown:?}", self.0.len())
    }
}

/// Both sides make one call on the bytes, which are left as the port left them.
fn both(call: Call, bytes: &mut [u8]) -> Result<(), Difference> {
    let mut ram = ram_of(bytes);
    let before = bytes.to_vec();
    let rust = call.in_rust(&mut ram);
    let port = call.in_port(bytes);
    let input = (call, Bytes(&before));
    same("ram", &input, (rust, Bytes(ram.as_bytes())), (port, Bytes(bytes)))
}

fn bytes(rng: &mut Rng, len: usize) -> Vec<u8> {
    (0..len).map(|_| rng.draw() as u8).collect()
}

/// Every length to 8 at every address near it and at the highest ones.
pub fn small(run: &Run) -> Outcome {
    let mut rng = Rng::new(run.seed);
    let mut cases = 0;
    for len in 0..=8 {
        for addr in (0..=9).chain(HIGHEST) {
            for kind in KINDS {
                for value in [0, 0xFFFF_FFFF, 0x0403_0201, rng.draw() as u32] {
                    both(Call { kind, addr, value }, &mut bytes(&mut rng, len))?;
                    cases += 1;
                }
            }
        }
    }
    Ok(cases)
}

/// Lengths to 64, with addresses that are inside, around the end, or anywhere.
pub fn random(run: &Run) -> Outcome {
    let mut rng = Rng::new(run.seed);
    let cases = run.scale * 200_000;
    for _ in 0..cases {
        let len = rng.below(65) as u32;
        let around_end = (len + rng.below(10) as u32).wrapping_sub(5);
        let inside = rng.below(65) as u32;
        let anywhere = rng.any() as u32;
        let addr = rng.pick(&[around_end, around_end, inside, anywhere]);
        let call = Call { kind: rng.pick(&KINDS), addr, value: rng.draw() as u32 };
        both(call, &mut bytes(&mut rng, len as usize))?;
    }
    Ok(cases)
}

/// The longest RAM equals the Rust at its ends; one byte more is refused untouched, by the rule alone.
pub fn limit(run: &Run) -> Outcome {
    let mut rng = Rng::new(run.seed);
    let mut longest = bytes(&mut rng, LONGEST);
    let mut over = bytes(&mut rng, LONGEST + 1);
    let before = over.clone();
    let end = LONGEST as u32;
    let mut cases = 0;
    for addr in [0, end - 4, end - 3, end - 2, end - 1, end, end + 1, 0xFFFF_FFFF] {
        for kind in KINDS {
            let call = Call { kind, addr, value: rng.draw() as u32 };
            both(call, &mut longest)?;
            let refused = Loaded { no: 22, place: 0, value: 0 };
            let port = call.in_port(&mut over);
            let input = (call, Bytes(&before));
            same("ram too long", &input, (refused, Bytes(&before)), (port, Bytes(&over)))?;
            cases += 2;
        }
    }
    Ok(cases)
}
