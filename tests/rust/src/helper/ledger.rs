//! The sink that makes the ledger: values go straight into one buffer, names are dropped.

use super::at::At;
use super::sink::{Sink, Value};

pub struct Ledger<'o> {
    out: &'o mut Vec<u8>,
}

impl<'o> Ledger<'o> {
    /// Empties the buffer, makes room for all that a body of that length can give, and starts with
    /// the length (still 0), the version and the id.
    pub fn start(out: &'o mut Vec<u8>, id: u8, body: usize) -> Self {
        out.clear();
        out.reserve(6 + 2 * body);
        out.extend_from_slice(&[0, 0, 1, id]);
        Ledger { out }
    }

    /// Stores the length of what stands behind it.
    pub fn finish(self) {
        let length = u16::try_from(self.out.len() - 2).expect("a ledger's length fits in 2 bytes");
        self.out[..2].copy_from_slice(&length.to_be_bytes());
    }
}

impl<'a> Sink<'a> for Ledger<'_> {
    /// Inlined, so that the kind and the width of a field are known where it is put.
    #[inline(always)]
    fn put(&mut self, _: &At<'_>, value: Value<'a>) {
        match value {
            Value::Bits { width, value } => put_number(self.out, width, value),
            Value::Signed { value, .. } => {
                self.out.extend_from_slice(&(value as i32).to_be_bytes());
            }
            Value::Slots(slots) => put_slots(self.out, slots),
            Value::Bytes(bytes) => self.out.extend_from_slice(bytes),
            Value::Count(n) => {
                let n = u16::try_from(n).expect("a count fits in 2 bytes");
                self.out.extend_from_slice(&n.to_be_bytes());
            }
            Value::Shown(_) | Value::Absent => {}
        }
    }

    #[inline(always)]
    fn remark(&mut self, _: &At<'_>, _: impl FnOnce() -> Value<'a>) {}
}

/// Big-endian in 1, 2, 4 or 8 bytes, as the width asks.
#[inline(always)]
fn put_number(out: &mut Vec<u8>, width: u8, value: u64) {
    match width {
        1..=8 => out.push(value as u8),
        9..=16 => out.extend_from_slice(&(value as u16).to_be_bytes()),
        17..=32 => out.extend_from_slice(&(value as u32).to_be_bytes()),
        _ => out.extend_from_slice(&value.to_be_bytes()),
    }
}

/// First slot in the top bit, unused bits zero.
fn put_slots(out: &mut Vec<u8>, slots: &[bool]) {
    let eights = slots.chunks_exact(8);
    let rest = eights.remainder();
    out.extend(eights.map(packed));
    if !rest.is_empty() {
        out.push(packed(rest) << (8 - rest.len()));
    }
}

#[inline]
fn packed(slots: &[bool]) -> u8 {
    slots.iter().fold(0, |byte, &on| byte << 1 | u8::from(on))
}
