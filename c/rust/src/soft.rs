//! The parts of a soft receiver around its decoder: rate recovery and joining code blocks.

use crate::calls::{call, plan, sizes, MOST_PLACES};
use crate::{Fault, Settings, Tx};

/// The result of [`join`].
#[derive(Clone, Debug, PartialEq, Eq)]
pub struct Joined {
    /// The octets of the transport block, whether its CRC passes or not.
    pub block: Vec<u8>,
    /// Whether the CRC of the transport block passes.
    pub block_passed: bool,
    /// For each code block whether its CRC24B passes. A single code block has none; there it is `block_passed`.
    pub passed: Vec<bool>,
}

/// Finds which bit each of the G places of a transmission carries, of a transport block of `a` bits (5.4.2, 5.5): r N + n for bit
/// d_n of code block r, with d as [`codeword`](crate::codeword) returns it. A soft receiver adds the value of place m to value
/// `places[m]` of its C rows of N values.
///
/// # Errors
/// `Size`, `RateRange`, `Uneven`, `NoBuffer`, those of a transmission.
pub fn places(settings: &Settings, a: u32, tx: &Tx) -> Result<Vec<u32>, Fault> {
    let mut found = vec![0; tx.g.min(MOST_PLACES) as usize];
    call!(nr_places: &settings.into(), a, &tx.into(), mut found)?;
    Ok(found)
}

/// Joins code blocks into their transport block of `a` bits, and checks the CRCs (5.1, 5.2.2): the inverse of [`cut`](crate::cut).
/// `bits` has C rows of K' decided bits, each 0 or 1. `Length` means that it has not.
///
/// # Errors
/// `Size`, `RateRange`, `Uneven`, `Length`, `Bit`, `Memory`.
pub fn join(rate2048: u32, a: u32, bits: &[u8]) -> Result<Joined, Fault> {
    let (c, octets) = (plan(rate2048, a)?.c as usize, sizes(rate2048, a).1);
    let (mut passed, mut block_passed, mut block) = (vec![0; c], 0, vec![0; octets]);
    call!(nr_join: rate2048, a, ref bits, mut passed, &mut block_passed, mut block)?;
    Ok(Joined { block, block_passed: block_passed == 1, passed: passed.iter().map(|&it: &u8| it == 1).collect() })
}
