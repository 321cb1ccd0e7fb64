//! What every part of the comparison is given, and what it gives back.

use std::fmt::Debug;

/// The command line's numbers.
pub struct Run {
    pub seed: u64,
    pub scale: u64,
}

/// The first case on which the two sides differ, in words.
pub struct Difference(pub String);

/// The number of cases compared.
pub type Outcome = Result<u64, Difference>;

/// The port must answer what is wanted of it; if not, the whole input is told with both answers.
pub fn same<A: PartialEq + Debug>(call: &str, input: &dyn Debug, wanted: A, port: A) -> Result<(), Difference> {
    if wanted == port {
        return Ok(());
    }
    Err(Difference(format!("{call}\n  input:  {input:?}\n  wanted: {wanted:?}\n  port:   {port:?}")))
}
