//! The errors: the numbers and names of nr.h, each with a sentence.

use std::fmt;

macro_rules! faults {
    ($(#[$about:meta])* $name:ident { $($number:literal $variant:ident $said:literal),* $(,)? }) => {
        $(#[$about])*
        #[derive(Clone, Copy, PartialEq, Eq, Hash)]
        #[non_exhaustive]
        pub enum $name {
            $(#[doc = $said] $variant,)*
            /// A number that this version of the crate does not know.
            Unknown(u32),
        }

        impl $name {
            pub(crate) fn of(status: u32) -> $name {
                match status {
                    $($number => $name::$variant,)*
                    other => $name::Unknown(other),
                }
            }

            /// The fault's number in nr.h.
            #[must_use]
            pub fn status(self) -> u32 {
                match self {
                    $($name::$variant => $number,)*
                    $name::Unknown(other) => other,
                }
            }
        }

        /// The name and the sentence, which `main` then shows of an error that it returns.
        impl fmt::Debug for $name {
            fn fmt(&self, f: &mut fmt::Formatter<'_>) -> fmt::Result {
                match self {
                    $($name::$variant => f.write_str(concat!(stringify!($variant), ": ", $said)),)*
                    $name::Unknown(other) => write!(f, "Unknown({other})"),
                }
            }
        }

        impl fmt::Display for $name {
            fn fmt(&self, f: &mut fmt::Formatter<'_>) -> fmt::Result {
                match self {
                    $($name::$variant => f.write_str($said),)*
                    $name::Unknown(other) => write!(f, "there is no such status: {other}"),
                }
            }
        }
    };
}

faults! {
    /// Why a call rejects its arguments: the first error that applies, in the order that each function lists.
    Fault {
        1 Memory "memory could not be allocated; the call may be repeated",
        2 Room "an output array does not have the length of the result",
        3 Many "there are more items than the call accepts",
        5 Bit "a value that stands for a bit is neither 0 nor 1",
        6 Lifting "no code block of this base graph has this lifting size",
        7 CodeBlock "no code block has this index, or this number of filler bits",
        8 State "the receiver's state was created for another table, block size or buffer limit, or it is corrupt",
        40 Size "a transport block has 8 to 1,310,720 bits, a multiple of 8",
        41 RateRange "the code rate is not 1 to 2048 in 2048ths",
        45 Uneven "the code blocks of this transport block would differ in length (5.2.2)",
        46 Graph "the table has no entries for the base graph, or there is no such base graph",
        47 NoBuffer "lbrm leaves no bit of a code block in the buffer, or ncb is not 1 to N (5.4.2.1)",
        50 Rv "rv is not 0 to 3",
        51 Order "qm is not 1, 2, 4, 6 or 8",
        52 Layers "nl is not 1 to 4",
        53 Total "g is not 1 to 4,194,304",
        54 Ragged "g is not a multiple of qm * nl, or a code block's bit count is not a multiple of qm",
        55 NoneScheduled "no code block of this transport block is scheduled",
        56 Length "an input array does not have the required length",
    }
}

faults! {
    /// Why a text is not a shift table.
    TableCause {
        1 Memory "memory could not be allocated; the call may be repeated",
        21 Csv "record {place} of the table does not have as many fields as record 1",
        22 Fields "record 1 of the table does not have eleven fields",
        23 Number "a field of record {place} of the table is not 1 to 10 decimal digits",
        24 Range "a number in record {place} of the table is out of range",
        25 Twice "record {place} of the table has the base graph, row and column of an earlier record",
        26 Core "rows 0 to 3 of base graph {place} do not have the shape of the standard's",
        27 Extension "a row i >= 4 of base graph {place} does not end in a single zero shift, at column n + i (n = 22 or 10)",
        28 MissingRow "base graph {place} has a row without an entry",
        29 Empty "the table has no entries",
        30 TooLong "the table's text is longer than 4,194,304 octets",
    }
}

/// Why a text is not a shift table, and where.
#[derive(Clone, Copy, PartialEq, Eq, Hash)]
pub struct TableFault {
    /// The cause.
    pub cause: TableCause,
    /// The record, from 1, or the base graph in which it is; else 0.
    pub place: u32,
}

impl fmt::Debug for TableFault {
    fn fmt(&self, f: &mut fmt::Formatter<'_>) -> fmt::Result {
        f.write_str(&format!("{:?}", self.cause).replace("{place}", &self.place.to_string()))
    }
}

impl fmt::Display for TableFault {
    fn fmt(&self, f: &mut fmt::Formatter<'_>) -> fmt::Result {
        f.write_str(&self.cause.to_string().replace("{place}", &self.place.to_string()))
    }
}

impl std::error::Error for Fault {}
impl std::error::Error for TableFault {}
