//! The functions of nr.h for one transport block or code block.

use crate::raw;
use crate::{Buffer, Fault, Match, Outcome, Plan, Poly, Received, Settings, Table, Tx};
use std::ffi::CStr;

pub(crate) const MOST_PLACES: u32 = 4_194_304;
const MOST_BITS: u32 = 1_310_720;
const LARGEST: u32 = 384;

/// Makes a call of nr.h. `ref` before a list stands for its pointer and length, if it is read, and `mut` if it is
/// written.
macro_rules! call {
    (@ $name:ident ($($done:expr,)*)) => {
        // SAFETY: each list is read or written over its own length. What is written is borrowed alone, so nothing overlaps it.
        $crate::calls::judge(unsafe { $crate::raw::$name($($done),*) })
    };
    (@ $name:ident ($($done:expr,)*) ref $list:expr, $($rest:tt)*) => {
        call!(@ $name ($($done,)* $list.as_ptr(), $list.len(),) $($rest)*)
    };
    (@ $name:ident ($($done:expr,)*) mut $list:expr, $($rest:tt)*) => {
        call!(@ $name ($($done,)* $list.as_mut_ptr(), $list.len(),) $($rest)*)
    };
    (@ $name:ident ($($done:expr,)*) $other:expr, $($rest:tt)*) => {
        call!(@ $name ($($done,)* $other,) $($rest)*)
    };
    ($name:ident: $($arguments:tt)*) => {
        call!(@ $name () $($arguments)*,)
    };
}
pub(crate) use call;

pub(crate) fn judge(status: u32) -> Result<(), Fault> {
    match status {
        0 => Ok(()),
        _ => Err(Fault::of(status)),
    }
}

/// How many code blocks and octets a transport block of `a` bits has; a size that is rejected has no code blocks.
pub(crate) fn sizes(rate2048: u32, a: u32) -> (usize, usize) {
    (plan(rate2048, a).map_or(0, |plan| plan.c as usize), a.min(MOST_BITS) as usize / 8)
}

impl From<&Settings> for raw::Settings {
    fn from(settings: &Settings) -> raw::Settings {
        raw::Settings { rate2048: settings.rate2048, lbrm: settings.lbrm.map_or(0, std::num::NonZeroU32::get), reserved: [0; 2] }
    }
}

impl From<&Tx> for raw::Tx {
    fn from(tx: &Tx) -> raw::Tx {
        let some = u64::from(tx.scheduled.is_some());
        raw::Tx { rv: tx.rv, g: tx.g, qm: tx.qm, nl: tx.nl, some, blocks: tx.scheduled.unwrap_or_default(), reserved: [0; 4] }
    }
}

/// The version of the library that is linked, as "0.3.0".
#[must_use]
pub fn version() -> &'static str {
    // SAFETY: the call returns a text of the library's own, which lives as long as the program.
    unsafe { CStr::from_ptr(raw::nr_version()) }.to_str().unwrap_or_default()
}

/// Computes the segmentation parameters of a transport block of `a` bits at code rate `rate2048 / 2048` (5.2.2, 6.2.2,
/// 7.2.2).
///
/// # Errors
/// `Size`, `RateRange`, `Uneven`.
pub fn plan(rate2048: u32, a: u32) -> Result<Plan, Fault> {
    let mut found = raw::Plan::default();
    call!(nr_plan: rate2048, a, &mut found)?;
    let raw::Plan { graph, b, l, c, kdash, kb, z, set, k, n, .. } = found;
    Ok(Plan { graph, b, l, c, kdash, kb, z, set, k, n })
}

/// Computes E_r, the number of bits that a transmission sends of each code block of a transport block of `a` bits
/// (5.4.2.1).
///
/// # Errors
/// `Size`, `RateRange`, `Uneven`, those of a transmission.
pub fn lengths(rate2048: u32, a: u32, tx: &Tx) -> Result<Vec<u32>, Fault> {
    let mut found = vec![0; plan(rate2048, a)?.c as usize];
    call!(nr_lengths: rate2048, a, &tx.into(), mut found)?;
    Ok(found)
}

/// Computes the circular buffer of the code blocks of a transport block of `a` bits, and where `rv` starts in it
/// (5.4.2.1).
///
/// # Errors
/// `Size`, `RateRange`, `Uneven`, `NoBuffer`, `Rv`.
pub fn buffer(settings: &Settings, a: u32, rv: u32) -> Result<Buffer, Fault> {
    let mut found = raw::Buffer::default();
    call!(nr_buffer: &settings.into(), a, rv, &mut found)?;
    Ok(Buffer { ncb: found.ncb, k0: found.k0 })
}

/// Extracts the K' bits of code block `r`, from 0, of a transport block (5.2.2), each 0 or 1, without filler bits: its
/// part of the block with the block's CRC and, if there are several code blocks, its own CRC24B.
///
/// # Errors
/// `Size`, `RateRange`, `Uneven`, `CodeBlock`, `Memory`.
pub fn cut(rate2048: u32, block: &[u8], r: u32) -> Result<Vec<u8>, Fault> {
    let a = u32::try_from(block.len()).ok().and_then(|octets| octets.checked_mul(8)).ok_or(Fault::Size)?;
    let mut bits = vec![0; plan(rate2048, a)?.kdash as usize];
    call!(nr_cut: rate2048, ref block, r, mut bits)?;
    Ok(bits)
}

/// Encodes the K bits of a code block into the N bits d (5.3.2), for base graph 1 or 2 and lifting size `z`. K is 22 or
/// 10 times `z`, and N 66 or 50 times. A bit may be [`FILLER`](crate::FILLER), which d has too.
///
/// # Errors
/// `Graph`, `Lifting`, `Length`, `Bit`; `Memory` at any point.
pub fn encode(table: &Table, graph: u32, z: u32, bits: &[u8]) -> Result<Vec<u8>, Fault> {
    let columns = if graph == 1 { 66 } else { 50 };
    let mut word = vec![0; columns * z.min(LARGEST) as usize];
    call!(nr_encode: ref table.entries(), graph, z, ref bits, mut word)?;
    Ok(word)
}

/// Encodes a code block of a transport block of `a` bits (5.3.2): its K' bits with its CRC, as [`cut`] returns them,
/// into the N bits d, each 0, 1 or [`FILLER`](crate::FILLER).
///
/// # Errors
/// `Size`, `RateRange`, `Uneven`, `Graph`, `Length`, `Bit`; `Memory` at any point.
pub fn codeword(table: &Table, rate2048: u32, a: u32, bits: &[u8]) -> Result<Vec<u8>, Fault> {
    let mut word = vec![0; plan(rate2048, a)?.n as usize];
    call!(nr_codeword: ref table.entries(), rate2048, a, ref bits, mut word)?;
    Ok(word)
}

/// Selects the `e` bits that redundancy version `rv` sends of a code block of a transport block of `a` bits (5.4.2.1).
/// `d` has the N bits that [`codeword`] returned. `Many` means more than 4,194,304 bits.
///
/// # Errors
/// `Size`, `RateRange`, `Uneven`, `NoBuffer`, `Rv`, `Length`, `Bit`, `Many`, `Memory`.
pub fn select(settings: &Settings, a: u32, rv: u32, d: &[u8], e: u32) -> Result<Vec<u8>, Fault> {
    // (the call rejects one octet more than it takes)
    let mut bits = vec![0; e.min(MOST_PLACES + 1) as usize];
    call!(nr_select: &settings.into(), a, rv, ref d, mut bits)?;
    Ok(bits)
}

/// Interleaves the selected bits of a code block into the order in which they are sent (5.4.2.2), with `qm` bits a
/// symbol.
///
/// # Errors
/// `Order`, `Many`, `Ragged`, `Bit`, `Memory`.
pub fn interleave(qm: u32, bits: &[u8]) -> Result<Vec<u8>, Fault> {
    let mut sent = vec![0; bits.len()];
    call!(nr_interleave: qm, ref bits, mut sent)?;
    Ok(sent)
}

/// Rate matches a single code block by its own parameters (5.4.2): selects `e` of the N bits `d` that [`encode`]
/// returned, and interleaves them. `CodeBlock` means that `fillers` is not below K - 2 Zc, `NoBuffer` that `ncb` is not
/// 1 to N.
///
/// # Errors
/// `Graph`, `Lifting`, `CodeBlock`, `NoBuffer`, `Rv`, `Order`, `Length`, `Bit`, `Many`, `Ragged`, `Memory`.
pub fn rate_match(numbers: &Match, d: &[u8], e: u32) -> Result<Vec<u8>, Fault> {
    let Match { graph, z, fillers, ncb, rv, qm } = *numbers;
    let numbers = raw::Match { graph, z, fillers, ncb, rv, qm, reserved: [0; 2] };
    let mut bits = vec![0; e.min(MOST_PLACES + 1) as usize];
    call!(nr_match: &numbers, ref d, mut bits)?;
    Ok(bits)
}

/// Erases random places, each with probability `threshold` / 2^32: sets them to [`ERASED`](crate::ERASED). They are the
/// places of `pcg:seed:threshold` in a schedule of the program linksim.
pub fn erase(seed: u64, threshold: u32, heard: &mut [u8]) {
    // SAFETY: the places, which are borrowed alone, are written over their length. The call is never refused.
    unsafe { raw::nr_erase(seed, threshold, heard.as_mut_ptr(), heard.len()) };
}

/// Computes the parity bits of octets (5.1) as a number, the first parity bit highest. `Many` means more than 2,097,152
/// octets.
///
/// # Errors
/// `Many`, `Memory`.
pub fn crc(poly: Poly, octets: &[u8]) -> Result<u32, Fault> {
    let mut parity = 0;
    call!(nr_crc: poly as u32, ref octets, &mut parity)?;
    Ok(parity)
}

/// Computes the G bits, each 0 or 1, that a transmission sends of a transport block (6.2, 7.2).
///
/// # Errors
/// `Size`, `RateRange`, `Uneven`, `Graph`, `NoBuffer`; those of a transmission; `Memory`.
pub fn send(table: &Table, settings: &Settings, block: &[u8], tx: &Tx) -> Result<Vec<u8>, Fault> {
    let mut bits = vec![0; tx.g.min(MOST_PLACES) as usize];
    send_into(table, settings, block, tx, &mut bits)?;
    Ok(bits)
}

/// Does what [`send`] does, into an array of G octets, which is unchanged on an error.
///
/// # Errors
/// `Size`, `RateRange`, `Uneven`, `Graph`, `NoBuffer`, those of a transmission, `Room`; `Memory` at any point.
pub fn send_into(table: &Table, settings: &Settings, block: &[u8], tx: &Tx, out: &mut [u8]) -> Result<(), Fault> {
    call!(nr_send: ref table.entries(), &settings.into(), ref block, &tx.into(), mut out)
}

/// Receives a transport block of `a` bits. Each transmission comes with its G places: 0, 1, or another number if the
/// place is erased.
///
/// # Errors
/// `Size`, `RateRange`, `Uneven`, `Graph`, `NoBuffer`; `Length`, those of a transmission; `Memory`.
pub fn receive(table: &Table, settings: &Settings, a: u32, receptions: &[(Tx, &[u8])]) -> Result<Received, Fault> {
    if receptions.iter().any(|(tx, places)| tx.g as usize != places.len()) {
        return Err(Fault::Length);
    }
    let txs: Vec<raw::Tx> = receptions.iter().map(|(tx, _)| tx.into()).collect();
    let heard: Vec<u8> = receptions.iter().flat_map(|(_, places)| places.iter().copied()).collect();
    let mut outcomes = vec![0; txs.len()];
    let (c, octets) = sizes(settings.rate2048, a);
    let (mut left, mut block) = (vec![0; c], vec![0; octets]);
    call!(nr_receive: ref table.entries(), &settings.into(), a, ref txs, ref heard, mut outcomes, mut left, mut block)?;
    Ok(received(&outcomes, &left, &block))
}

/// The result of a receiver.
pub(crate) fn received(outcomes: &[u32], left: &[u32], block: &[u8]) -> Received {
    let outcomes: Vec<Outcome> = outcomes.iter().map(|&number| outcome(number)).collect();
    let delivered = outcomes.last() == Some(&Outcome::Delivered);
    Received { outcomes, left: left.to_vec(), block: delivered.then(|| block.to_vec()) }
}

pub(crate) fn outcome(number: u32) -> Outcome {
    match number {
        1 => Outcome::Delivered,
        2 => Outcome::Contradiction,
        _ => Outcome::Open,
    }
}
