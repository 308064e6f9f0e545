//! The plain body, written by the Rust's own writer.

use super::super::{sat_body_write, BitWriter, SatBody};
use crate::error::Result;

/// Bytes of the body laid out again.
pub fn plain_body(sat: &SatBody) -> Result<Vec<u8>> {
    let mut buffer = vec![0u8; 2 * super::LIMIT];
    let length = plain_into(sat, &mut buffer)?;
    buffer.truncate(length);
    Ok(buffer)
}

/// Lays the body out at the front of a buffer and gives its length. The Rust's writer only sets
/// bits, so they must be zero before. It writes nothing for raw bodies, so these are copied.
pub fn plain_into(sat: &SatBody, buffer: &mut [u8]) -> Result<usize> {
    if let SatBody::Raw(bytes) = sat {
        buffer[..bytes.len()].copy_from_slice(bytes);
        return Ok(bytes.len());
    }
    let mut writer = BitWriter::new(buffer);
    sat_body_write(sat, &mut writer)?;
    let bits = writer.bits_written();
    assert!(bits % 8 == 0, "a plain body ends on a byte");
    Ok(bits / 8)
}
