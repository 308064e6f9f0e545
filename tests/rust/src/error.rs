//! Stand-in for the crate's error type: the variants that sat.rs makes.

use broadcast_common::len::FieldOverflow;

#[derive(Debug, Clone, PartialEq, Eq)]
pub enum Error {
    BufferTooShort { need: usize, have: usize, what: &'static str },
    OutputBufferTooSmall { need: usize, have: usize },
    SectionLengthOverflow { declared: usize, available: usize },
    UnexpectedTableId { table_id: u8, what: &'static str, expected: &'static [u8] },
    ValueOutOfRange { field: &'static str, reason: &'static str },
    FieldOverflow(FieldOverflow),
}

impl From<FieldOverflow> for Error {
    fn from(over: FieldOverflow) -> Self {
        Error::FieldOverflow(over)
    }
}

pub type Result<T> = core::result::Result<T, Error>;
