//! A receiver that takes one transmission a call.

use crate::calls::{call, outcome, sizes};
use crate::{Fault, Outcome, Settings, Table, Tx};

/// A receiver of one transport block that takes one transmission a call. Its room is its HARQ buffer: octets that may
/// be copied, kept as long as this version of the library is used, and sent elsewhere.
#[derive(Clone, Debug, PartialEq, Eq)]
pub struct Receiver {
    settings: Settings,
    a: u32,
    room: Vec<u8>,
}

/// What a receiver knows after everything it has received.
#[derive(Clone, Debug, PartialEq, Eq)]
pub struct Taken {
    /// The outcome.
    pub outcome: Outcome,
    /// How many of the K' bits of each code block are unknown.
    pub left: Vec<u32>,
    /// The transport block's octets, if it is delivered.
    pub block: Option<Vec<u8>>,
}

impl Receiver {
    /// A receiver of a transport block of `a` bits that has received nothing.
    ///
    /// # Errors
    /// `Size`, `RateRange`, `Uneven`.
    pub fn new(table: &Table, settings: &Settings, a: u32) -> Result<Receiver, Fault> {
        let mut octets = 0;
        call!(nr_receiver_size: settings.rate2048, a, &mut octets)?;
        let mut room = vec![0; octets];
        call!(nr_receiver_start: ref table.entries(), &settings.into(), a, mut room)?;
        Ok(Receiver { settings: *settings, a, room })
    }

    /// The receiver whose room this is. The next `take` checks it.
    #[must_use]
    pub fn of_room(settings: &Settings, a: u32, room: Vec<u8>) -> Receiver {
        Receiver { settings: *settings, a, room }
    }

    /// Everything received: 32 octets that say for what it was started, then an octet for each codeword bit of each
    /// code block.
    #[must_use]
    pub fn room(&self) -> &[u8] {
        &self.room
    }

    /// Takes up one transmission, of which this was received at its G places: 0, 1, or another number for nothing. If
    /// it is refused, the receiver is as it was.
    ///
    /// # Errors
    /// `Size`, `RateRange`, `Uneven`, `Graph`, `NoBuffer`, `State`, those of a transmission, `Length`; `Memory` at any
    /// point.
    pub fn take(&mut self, table: &Table, tx: &Tx, heard: &[u8]) -> Result<Taken, Fault> {
        let mut last = 0;
        let (c, octets) = sizes(self.settings.rate2048, self.a);
        let (mut left, mut block) = (vec![0; c], vec![0; octets]);
        call!(
            nr_receiver_take: ref table.entries(), &(&self.settings).into(), self.a, mut self.room, &tx.into(), ref heard,
            &mut last, mut left, mut block
        )?;
        let outcome = outcome(last);
        let block = (outcome == Outcome::Delivered).then_some(block);
        Ok(Taken { outcome, left, block })
    }
}
