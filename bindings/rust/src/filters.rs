//! The filters of a Subscribe in a table, in order (02's P7).
use crate::error::{fault, fit};
use crate::{sys::*, Error};
use std::fmt;

/// A filter: where its text stands in the stream, and its options byte with bits 6 and 7 clear. It is three numbers, as the library lays them
/// out, so that a table of entries is filled where it stands.
#[repr(transparent)]
#[derive(Clone, Copy, Default, PartialEq, Eq)]
pub struct FilterEntry([u64; ECCH_ENTRY_NUMBERS]);

impl FilterEntry {
    pub fn start(&self) -> usize {
        self.0[ECCH_ENTRY_START] as usize
    }

    pub fn len(&self) -> usize {
        self.0[ECCH_ENTRY_LEN] as usize
    }

    /// Whether the text is empty, as it is in an entry that was never filled.
    pub fn is_empty(&self) -> bool {
        self.len() == 0
    }

    /// QoS in bits 0 and 1, no-local in 2, preserve-retain in 3, the forward rule in 4 and 5.
    pub fn options(&self) -> u8 {
        fit("options", self.0[ECCH_ENTRY_OPTIONS])
    }

    /// The text, of the stream that the entry was filled from.
    pub fn text<'a>(&self, stream: &'a [u8]) -> &'a [u8] {
        &stream[self.start()..self.start() + self.len()]
    }
}

impl fmt::Debug for FilterEntry {
    fn fmt(&self, f: &mut fmt::Formatter<'_>) -> fmt::Result {
        f.debug_struct("FilterEntry").field("start", &self.start()).field("len", &self.len()).field("options", &self.options()).finish()
    }
}

/// Why no table was filled; the table is then as it was.
#[derive(Debug)]
pub enum NoTable {
    /// 37: so many places are needed
    FilterTableFull(usize),
    /// 38: the frame is accepted, and is another packet
    NotSubscribe,
    /// the reader's refusal
    Refused(Error),
}

impl NoTable {
    /// The number of the refusal.
    pub fn number(&self) -> u8 {
        match self {
            NoTable::FilterTableFull(_) => ECCH_FILTER_TABLE_FULL as u8,
            NoTable::NotSubscribe => ECCH_NOT_SUBSCRIBE as u8,
            NoTable::Refused(e) => e.number(),
        }
    }

    fn of(number: u32, one: u64, two: u64) -> NoTable {
        match number as usize {
            ECCH_FILTER_TABLE_FULL => NoTable::FilterTableFull(one as usize),
            ECCH_NOT_SUBSCRIBE => NoTable::NotSubscribe,
            n => Error::of(number, one, two).map_or_else(|| fault("refusal", n), NoTable::Refused),
        }
    }
}

impl fmt::Display for NoTable {
    fn fmt(&self, f: &mut fmt::Formatter<'_>) -> fmt::Result {
        match self {
            NoTable::FilterTableFull(n) => write!(f, "The table needs {n} places"),
            NoTable::NotSubscribe => f.write_str("The frame is no Subscribe"),
            NoTable::Refused(e) => e.fmt(f),
        }
    }
}

impl std::error::Error for NoTable {}

/// The filters of the Subscribe at the start of the stream, which is read with no limit, into the table that is lent, in order: how many there
/// are. A refused call leaves the table as it was; places past the last filter keep what they held. No copy, no allocation.
pub fn fill_filters(stream: &[u8], table: &mut [FilterEntry]) -> Result<usize, NoTable> {
    let mut n = [0u64; ECCH_TABLE_NUMBERS];
    // Sound: an entry is three numbers and nothing else; the pointers stand for whole Rust slices, and no two overlap since two of them are lent
    // for writing.
    let number = unsafe {
        ecch_filter_table(
            stream.as_ptr(), stream.len(), table.as_mut_ptr().cast(), table.len() * ECCH_ENTRY_NUMBERS, n.as_mut_ptr(), n.len(),
        )
    };
    match number {
        0 => Ok(n[ECCH_TABLE_FILLED] as usize),
        _ => Err(NoTable::of(number, n[ECCH_TABLE_VALUE_1], n[ECCH_TABLE_VALUE_2])),
    }
}

/// The same as a `Vec` with an entry for each filter: 37 is never given.
pub fn filters(stream: &[u8]) -> Result<Vec<FilterEntry>, NoTable> {
    // asked with no place first, so that the Vec has as many as are needed: the frame is read twice
    let mut table = match fill_filters(stream, &mut []) {
        Err(NoTable::FilterTableFull(needed)) => vec![FilterEntry::default(); needed],
        Err(e) => return Err(e),
        Ok(n) => fault("a filter table of", n),
    };
    fill_filters(stream, &mut table)?;
    Ok(table)
}
