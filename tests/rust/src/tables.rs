//! Stand-ins for the section helpers that sat.rs takes from its parent module.
//! Only `SatSection`, which is left out of the comparison, calls them.

use crate::error::{Error, Result};
use broadcast_common::len::fit_mask;

pub const CRC_LEN: usize = 4;
pub const RESERVED_2: u8 = 3;
pub const SECTION_B1_SSI: u8 = 0x80;
pub const SECTION_B1_PRIVATE_INDICATOR: u8 = 0x40;
pub const SECTION_LENGTH_HI_MASK: u8 = 0x0f;

pub fn section_length_of(bytes: &[u8]) -> usize {
    usize::from(bytes[1] & SECTION_LENGTH_HI_MASK) << 8 | usize::from(bytes[2])
}

/// Whole length of a section, if the data and the smallest size allow it.
pub fn check_section_length(have: usize, prefix: usize, declared: usize, least: usize) -> Result<usize> {
    let total = prefix + declared;
    if total > have || total < least {
        return Err(Error::SectionLengthOverflow { declared, available: have });
    }
    Ok(total)
}

pub fn version_number_of(byte: u8) -> u8 {
    byte >> 1 & 0x1f
}

pub fn current_next_of(byte: u8) -> bool {
    byte & 1 != 0
}

pub fn b1_reserved_of(byte: u8) -> u8 {
    byte >> 4 & 3
}

pub fn b5_reserved_of(byte: u8) -> u8 {
    byte >> 6
}

pub fn b1_of(syntax: bool, private: bool, reserved: u8) -> Result<u8> {
    let reserved = fit_mask(reserved, 3, "reserved_b1")?;
    Ok(u8::from(syntax) << 7 | u8::from(private) << 6 | reserved << 4)
}

pub fn b5_of(reserved: u8, version: u8, current_next: bool) -> Result<u8> {
    let reserved = fit_mask(reserved, 3, "reserved_b5")?;
    let version = fit_mask(version, 0x1f, "version_number")?;
    Ok(reserved << 6 | version << 1 | u8::from(current_next))
}

/// The section's checksum (polynomial 04c11db7, start of all ones) behind its first `end` bytes.
pub fn write_crc(buf: &mut [u8], end: usize) {
    let mut crc = u32::MAX;
    for &byte in &buf[..end] {
        crc ^= u32::from(byte) << 24;
        for _ in 0..8 {
            crc = if crc >> 31 == 1 { crc << 1 ^ 0x04c1_1db7 } else { crc << 1 };
        }
    }
    buf[end..end + CRC_LEN].copy_from_slice(&crc.to_be_bytes());
}

// The build script puts the Rust under test, with our helper as its child, into this file.
#[path = "../target/made/sat.rs"]
#[allow(dead_code, unused_imports)]
pub mod sat;
