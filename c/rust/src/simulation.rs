//! Rounds of a transport block over random erasures.

use crate::calls::{call, sizes};
use crate::{raw, Fault, Settings, Table, Tx};

/// The result of rounds. It is the same for every transport block, because over erasures it depends on the places
/// alone.
#[derive(Clone, Debug, PartialEq, Eq)]
pub struct Simulated {
    /// After how many transmissions each round delivered its block; 0 if it did not.
    pub delivered: Vec<u32>,
    /// How many of the K' bits of a code block were unknown, by round, transmission and code block. 0 after the
    /// delivery.
    pub left: Vec<u32>,
    /// How many places of the code block that transmission erased, in the same order. 0 after the delivery.
    pub erased: Vec<u32>,
}

/// Simulates rounds of a transport block of `a` bits over a link that erases random places. A round sends the
/// transmissions in turn until the block is delivered. Each transmission comes with its threshold, and `seeds` has a
/// seed for each transmission of each round; [`erase`](crate::erase) says which places they erase. Ask for multiples of
/// 64 rounds, because 64 are decoded at once. `Many` means more than 1,000 transmissions, `Length` that the seeds are
/// not those of whole rounds.
///
/// # Errors
/// `Size`, `RateRange`, `Uneven`, `Many`, `Length`, `Graph`, `NoBuffer`; those of each transmission; `Memory` at any
/// point.
pub fn simulate(table: &Table, settings: &Settings, a: u32, txs: &[(Tx, u32)], seeds: &[u64]) -> Result<Simulated, Fault> {
    let thresholds: Vec<u32> = txs.iter().map(|(_, threshold)| *threshold).collect();
    let txs: Vec<raw::Tx> = txs.iter().map(|(tx, _)| tx.into()).collect();
    let rows = seeds.len() * sizes(settings.rate2048, a).0;
    let mut delivered = vec![0; seeds.len().checked_div(txs.len()).unwrap_or(0)];
    let (mut left, mut erased) = (vec![0; rows], vec![0; rows]);
    call!(
        nr_simulate: ref table.entries(), &settings.into(), a, ref txs, ref thresholds, ref seeds,
        mut delivered, mut left, mut erased
    )?;
    Ok(Simulated { delivered, left, erased })
}
