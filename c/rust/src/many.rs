//! Many transport blocks of one size, by one reading of the table.

use crate::calls::{call, received, sizes, MOST_PLACES};
use crate::{raw, Fault, Received, Settings, Table, Tx};

/// Computes the bits that these transmissions send of each of many transport blocks of `a` bits. `blocks` has the
/// octets of one block after the other; the result has, block by block, the G bits of each transmission, as
/// [`receive_many`] takes them. `Many` means more than 1,000 transmissions, `Size` also that `blocks` ends within a
/// block.
///
/// # Errors
/// `Many`, `Size`, `RateRange`, `Uneven`, `Graph`, `NoBuffer`; those of each transmission; `Memory` at any point.
pub fn send_many(table: &Table, settings: &Settings, a: u32, txs: &[Tx], blocks: &[u8]) -> Result<Vec<u8>, Fault> {
    let listed: Vec<raw::Tx> = txs.iter().map(Into::into).collect();
    let count = blocks.len().checked_div(a as usize / 8).unwrap_or(0);
    let mut bits = vec![0; count * txs.iter().map(|tx| tx.g.min(MOST_PLACES) as usize).sum::<usize>()];
    call!(nr_send_many: ref table.entries(), &settings.into(), a, ref listed, count, ref blocks, mut bits)?;
    Ok(bits)
}

/// Receives many transport blocks of `a` bits. `heard` has, block by block, the G places of each transmission. `Many`
/// means more than 1,000 transmissions, `Length` that `heard` ends within a block.
///
/// # Errors
/// `Many`, `Size`, `RateRange`, `Uneven`, `Length`, `Graph`, `NoBuffer`; those of each transmission; `Memory` at any
/// point.
pub fn receive_many(table: &Table, settings: &Settings, a: u32, txs: &[Tx], heard: &[u8]) -> Result<Vec<Received>, Fault> {
    let listed: Vec<raw::Tx> = txs.iter().map(Into::into).collect();
    let count = heard.len().checked_div(txs.iter().map(|tx| tx.g as usize).sum()).unwrap_or(0);
    let (n, (c, octets)) = (txs.len(), sizes(settings.rate2048, a));
    let (mut outcomes, mut left, mut blocks) = (vec![0; count * n], vec![0; count * c], vec![0; count * octets]);
    call!(
        nr_receive_many: ref table.entries(), &settings.into(), a, ref listed, count, ref heard,
        mut outcomes, mut left, mut blocks
    )?;
    let of_block = |k: usize| received(&outcomes[k * n..][..n], &left[k * c..][..c], &blocks[k * octets..][..octets]);
    Ok((0..count).map(of_block).collect())
}
