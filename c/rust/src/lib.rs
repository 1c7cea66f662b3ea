//! The data coding chain of 5G NR's shared channels, DL-SCH and UL-SCH (3GPP TS 38.212, Release 15), over the static
//! library of nr.h: CRC, segmentation, LDPC coding, rate matching, interleaving and concatenation, and a receiver over
//! erasures with HARQ combining and peeling decoding. The library is formally verified; this crate is a tested layer
//! over it.
//!
//! ```no_run
//! let table = nr::Table::practice(); // or Table::read, over a file's octets
//! let (settings, tx) = (nr::Settings::new(1024), nr::Tx::new(300, 2));
//! let bits = nr::send(&table, &settings, b"123456789", &tx).unwrap();
//! let answer = nr::receive(&table, &settings, 72, &[(tx, &bits)]).unwrap();
//! assert_eq!(answer.block.as_deref(), Some(&b"123456789"[..]));
//! ```
//!
//! An octet of a transport block has eight bits, the first bit highest. A bit that is sent or received has an octet of
//! its own. No call keeps state, so any number of threads may call; each needs 64 KiB of stack. Do not call in the
//! forked child of a process that has several threads.
#![warn(missing_docs)]

mod calls;
mod fault;
mod many;
mod packed;
mod raw;
mod receiver;
mod simulation;
mod soft;
mod table;

pub use calls::{
    buffer, codeword, crc, cut, encode, erase, interleave, lengths, plan, rate_match, receive, select, send, send_into, version,
};
pub use fault::{Fault, TableCause, TableFault};
pub use many::{receive_many, send_many};
pub use packed::{receive_packed, send_packed};
pub use receiver::{Receiver, Taken};
pub use simulation::{simulate, Simulated};
pub use soft::{join, places, Joined};
pub use table::{Entry, Table};

/// An erased place; so is any number above 1.
pub const ERASED: u8 = 2;
/// A filler bit of a codeword, which is never sent.
pub const FILLER: u8 = 2;

/// What both ends of a link have to agree on.
#[derive(Clone, Copy, Debug, PartialEq, Eq, Hash)]
pub struct Settings {
    /// The code rate in 2048ths, 1 to 2048: twice the "target code rate x 1024" of the MCS tables of TS 38.214.
    pub rate2048: u32,
    /// TBS_LBRM in bits, which limits the circular buffer (5.4.2.1), or `None` for no limit.
    pub lbrm: Option<std::num::NonZeroU32>,
}

impl Settings {
    /// The settings of a code rate in 2048ths, without a buffer limit.
    #[must_use]
    pub const fn new(rate2048: u32) -> Settings {
        Settings { rate2048, lbrm: None }
    }
}

/// One transmission of a transport block (5.4.2).
#[derive(Clone, Copy, Debug, PartialEq, Eq, Hash)]
pub struct Tx {
    /// G, the number of bits sent, 1 to 4,194,304: a multiple of `qm * nl`.
    pub g: u32,
    /// Qm, the bits of a modulation symbol: 1, 2, 4, 6 or 8.
    pub qm: u32,
    /// NL, transmission layers, 1 to 4.
    pub nl: u32,
    /// The redundancy version, 0 to 3.
    pub rv: u32,
    scheduled: Option<[u64; 6]>,
}

impl Tx {
    /// All code blocks on one layer, with the redundancy version 0.
    #[must_use]
    pub const fn new(g: u32, qm: u32) -> Tx {
        Tx { g, qm, nl: 1, rv: 0, scheduled: None }
    }

    /// The same with another redundancy version.
    #[must_use]
    pub const fn rv(self, rv: u32) -> Tx {
        Tx { rv, ..self }
    }

    /// The same on this number of layers.
    #[must_use]
    pub const fn layers(self, nl: u32) -> Tx {
        Tx { nl, ..self }
    }

    /// The same with only these code blocks, counted from 0.
    ///
    /// # Panics
    /// If an index is above 383; no transport block has more than 344 code blocks.
    #[must_use]
    pub fn blocks(self, blocks: &[usize]) -> Tx {
        let mut words = [0; 6];
        for &block in blocks {
            words[block / 64] |= 1 << (block % 64);
        }
        Tx { scheduled: Some(words), ..self }
    }
}

/// The segmentation parameters of a transport block (5.2.2, 5.3.2).
#[derive(Clone, Copy, Debug, PartialEq, Eq, Hash)]
pub struct Plan {
    /// The base graph, 1 or 2.
    pub graph: u32,
    /// B, the transport block's bits with its CRC.
    pub b: u32,
    /// L, the CRC bits of each code block: 24, or 0 if there is one code block.
    pub l: u32,
    /// C, the number of code blocks: 1 to 344.
    pub c: u32,
    /// K', the bits of a code block with its CRC, without filler bits.
    pub kdash: u32,
    /// Kb, the number of columns that hold the K' bits.
    pub kb: u32,
    /// Zc, the lifting size.
    pub z: u32,
    /// The set index of Zc, 0 to 7.
    pub set: u32,
    /// K, the bits of a code block with filler bits.
    pub k: u32,
    /// N, the bits of a codeword.
    pub n: u32,
}

/// The circular buffer of a code block (5.4.2.1).
#[derive(Clone, Copy, Debug, PartialEq, Eq, Hash)]
pub struct Buffer {
    /// Ncb, the bits of a codeword that the buffer keeps: 1 to N.
    pub ncb: u32,
    /// k0, the index in the buffer at which the redundancy version starts.
    pub k0: u32,
}

/// The parameters by which a single code block is rate matched (5.4.2).
#[derive(Clone, Copy, Debug, PartialEq, Eq, Hash)]
pub struct Match {
    /// The base graph, 1 or 2.
    pub graph: u32,
    /// Zc, the lifting size.
    pub z: u32,
    /// K - K', the number of filler bits: the last of the K bits.
    pub fillers: u32,
    /// Ncb, the bits that the circular buffer keeps: 1 to N.
    pub ncb: u32,
    /// The redundancy version, 0 to 3.
    pub rv: u32,
    /// Qm, bits a modulation symbol: 1, 2, 4, 6 or 8.
    pub qm: u32,
}

/// A generator polynomial (5.1).
#[derive(Clone, Copy, Debug, PartialEq, Eq, Hash)]
pub enum Poly {
    /// gCRC24A
    Crc24A = 0,
    /// gCRC24B
    Crc24B = 1,
    /// gCRC16
    Crc16 = 2,
}

/// What a receiver knows after a transmission.
#[derive(Clone, Copy, Debug, PartialEq, Eq, Hash)]
pub enum Outcome {
    /// Undecided: at least one bit is still unknown.
    Open,
    /// Exactly one transport block is consistent with everything received.
    Delivered,
    /// Inconsistent: no transport block is consistent with everything received.
    Contradiction,
}

/// The result of receiving a transport block.
#[derive(Clone, Debug, PartialEq, Eq)]
pub struct Received {
    /// The outcome after each transmission.
    pub outcomes: Vec<Outcome>,
    /// How many of the K' bits of each code block are unknown after the last one.
    pub left: Vec<u32>,
    /// The transport block's octets if it is delivered after the last one.
    pub block: Option<Vec<u8>>,
}
