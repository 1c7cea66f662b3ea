//! Sending and receiving with eight bits an octet, the first bit highest.

use crate::calls::{call, received, sizes, MOST_PLACES};
use crate::{raw, Fault, Received, Settings, Table, Tx};

/// Does what [`send`](crate::send) does, with eight bits an octet, the first bit highest. The last octet is filled with zero bits.
///
/// # Errors
/// `Size`, `RateRange`, `Uneven`, `Graph`, `NoBuffer`, those of a transmission; `Memory` at any point.
pub fn send_packed(table: &Table, settings: &Settings, block: &[u8], tx: &Tx) -> Result<Vec<u8>, Fault> {
    let mut sent = vec![0; ((tx.g.min(MOST_PLACES) + 7) / 8) as usize];
    call!(nr_send_packed: ref table.entries(), &settings.into(), ref block, &tx.into(), mut sent)?;
    Ok(sent)
}

/// Does what [`receive`](crate::receive) does, with eight places an octet, the first place highest. Each transmission comes with its
/// bits, and with a 1 for each of them that was received and a 0 for an erased one.
///
/// # Errors
/// made
pub fn receive_packed(table: &Table, settings: &Settings, a: u32, receptions: &[(Tx, &[u8], &[u8])]) -> Result<Received, Fault> {
    let octets = |tx: &Tx| tx.g as usize / 8 + usize::from(tx.g % 8 > 0);
    if receptions.iter().any(|(tx, bits, known)| bits.len() != octets(tx) || known.len() != octets(tx)) {
        return Err(Fault::Length);
    }
    let txs: Vec<raw::Tx> = receptions.iter().map(|(tx, ..)| tx.into()).collect();
    let bits: Vec<u8> = receptions.iter().flat_map(|(_, bits, _)| bits.iter().copied()).collect();
    let known: Vec<u8> = receptions.iter().flat_map(|(.., known)| known.iter().copied()).collect();
    let mut outcomes = vec![0; txs.len()];
    let (c, size) = sizes(settings.rate2048, a);
    let (mut left, mut block) = (vec![0; c], vec![0; size]);
    call!(
        nr_receive_packed: ref table.entries(), &settings.into(), a, ref txs, ref bits, ref known, mut outcomes, mut left,
        mut block
    )?;
    Ok(received(&outcomes, &left, &block))
}
