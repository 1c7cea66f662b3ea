//! Shift tables.

use crate::fault::{TableCause, TableFault};
use crate::raw;

/// An entry of a shift table (Tables 5.3.2-2 and 5.3.2-3).
#[repr(C)]
#[derive(Clone, Copy, Debug, Default, PartialEq, Eq, Hash)]
pub struct Entry {
    /// The base graph, 1 or 2.
    pub graph: u16,
    /// The row, from 0.
    pub row: u16,
    /// The column, from 0.
    pub col: u16,
    /// The shift value of each set 0 to 7, not reduced by a lifting size.
    pub values: [u16; 8],
}

/// A shift table, read from its text once for any number of calls.
#[derive(Clone, Debug, PartialEq, Eq)]
pub struct Table {
    entries: Vec<Entry>,
}

impl Table {
    /// Reads the text of a shift table: comma-separated values, with a record for each entry. A record has the base
    /// graph, the row, the column and the shift values of the sets 0 to 7.
    ///
    /// # Errors
    /// The text's first error, with its place.
    pub fn read(text: &[u8]) -> Result<Table, TableFault> {
        let mut report = raw::Report::default();
        // SAFETY: the text is read over its length, and the report is one that can be written.
        let status = unsafe { raw::nr_table_check(text.as_ptr(), text.len(), &mut report) };
        judge(status, report.place)?;
        let mut entries = vec![Entry::default(); report.one as usize + report.two as usize];
        let mut count = 0;
        // SAFETY: as above; the entries are written over their length, and overlap nothing.
        let status = unsafe { raw::nr_table_entries(text.as_ptr(), text.len(), entries.as_mut_ptr(), entries.len(), &mut count) };
        judge(status, 0)?;
        Ok(Table { entries })
    }

    /// The practice table, which comes with the crate: both base graphs, with random shift values in place of the
    /// published ones. Those are read from the text of TS 38.212 by `linksim-table read` or `python -m nr.table read`.
    #[must_use]
    pub fn practice() -> Table {
        Table::read(include_bytes!(env!("NR_PRACTICE"))).expect("the practice table is accepted")
    }

    /// The entries, ascending by base graph, row and column.
    #[must_use]
    pub fn entries(&self) -> &[Entry] {
        &self.entries
    }
}

fn judge(status: u32, place: u32) -> Result<(), TableFault> {
    match status {
        0 => Ok(()),
        _ => Err(TableFault { cause: TableCause::of(status), place }),
    }
}
