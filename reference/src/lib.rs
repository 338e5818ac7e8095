//! An independent second implementation of the bench tester's core.
//!
//! It is written from the papers alone: "01" in the comments is the paper with the exact rules,
//! "02" the change requests "T-01", "T-02", .., "000" is Q/GDW 11612.41-2016, "004" its 2018 text,
//! and "D1", "D2", .. are the entries of docs/DECISIONS.md.

pub mod card;
pub mod carriers;
pub mod cases;
pub mod copies;
#[cfg(feature = "core")]
pub mod core_calls;
pub mod entries;
pub mod interface;
pub mod interleaver;
pub mod points;
pub mod scrambler;
pub mod turbo;

#[cfg(test)]
mod tests;

/// The numbers a fitter may see (01, "Numbers a fitter may see"; 02, T-03 and T-05), in the order
/// in which they are checked (D9). There is a gap at 9: it was "pad longer than the coded data", is
/// withdrawn, and is given to nothing else.
pub mod number {
    pub const DONE: u32 = 0;
    pub const CARD_LENGTH: u32 = 1;
    pub const VERSION_SPARE_OR_PADDING: u32 = 2;
    pub const VERSION_AND_LENGTH: u32 = 10;
    pub const MODE: u32 = 3;
    pub const INPUT: u32 = 4;
    pub const OUTPUT: u32 = 5;
    pub const ITEM: u32 = 6;
    pub const MAJORITY: u32 = 7;
    pub const PARITY: u32 = 8;
    pub const COUNTS: u32 = 11;
}

/// An entry's answer: the number and what comes with it (D10, D18). The second value is 0 in the
/// base.
#[derive(Clone, Copy, Debug, PartialEq, Eq)]
pub struct Report {
    pub number: u32,
    pub value: u64,
    pub second: u64,
}

impl Report {
    /// A number and both values, as the C side gives them.
    pub const fn new(number: u32, [value, second]: [u64; 2]) -> Report {
        Report {
            number,
            value,
            second,
        }
    }

    /// Number 0, with the count of elements written (D10).
    pub const fn done(count: usize) -> Report {
        Report::new(number::DONE, [count as u64, 0])
    }

    /// A refusal and what comes with it.
    pub const fn refused(number: u32, value: u64) -> Report {
        Report::new(number, [value, 0])
    }
}

/// The number that up to eight bytes hold, the most significant first.
pub fn big_endian(bytes: &[u8]) -> u64 {
    let bytes = bytes.iter();
    bytes.fold(0, |number, &byte| number << 8 | u64::from(byte))
}
