//! What a table's description hands its fields to. There are two: the listing and the ledger.

use super::at::At;

/// What a field holds. The last two are remarks that only the listing shows.
#[derive(Clone, Copy)]
pub enum Value<'a> {
    /// Unsigned, with its width in bits.
    Bits { width: u8, value: u64 },
    /// Two's complement, with its width in bits.
    Signed { width: u8, value: i64 },
    /// One bit a slot.
    Slots(&'a [bool]),
    /// Bytes as they are.
    Bytes(&'a [u8]),
    /// A 2-byte number of the ledger that is not in the body: entries, or raw plan bytes.
    Count(usize),
    /// A number that is not in the ledger: a plan's length, or slots switched on.
    Shown(usize),
    /// A part that the body does not have.
    Absent,
}

pub trait Sink<'a> {
    /// A field of the ledger.
    fn put(&mut self, name: &At<'_>, value: Value<'a>);

    /// A remark, worked out only by a sink that keeps it.
    fn remark(&mut self, name: &At<'_>, value: impl FnOnce() -> Value<'a>);

    /// An unsigned field; a value wider than its field would be a fault of this helper.
    #[inline(always)]
    fn number(&mut self, name: &At<'_>, width: u8, value: u64) {
        debug_assert!(width == 64 || value >> width == 0, "{name} wider than {width} bits");
        self.put(name, Value::Bits { width, value });
    }

    #[inline(always)]
    fn bits(&mut self, at: &At<'_>, name: &'static str, width: u8, value: impl Into<u64>) {
        self.number(&at.part(name), width, value.into());
    }

    #[inline(always)]
    fn element(&mut self, at: &At<'_>, name: &'static str, index: usize, value: u32) {
        self.number(&at.entry(name, index), 32, value.into());
    }

    #[inline(always)]
    fn flag(&mut self, at: &At<'_>, name: &'static str, on: bool) {
        self.bits(at, name, 1, on);
    }

    #[inline(always)]
    fn signed(&mut self, at: &At<'_>, name: &'static str, width: u8, value: i32) {
        let (name, value, half) = (at.part(name), i64::from(value), 1i64 << (width - 1));
        debug_assert!(-half <= value && value < half, "{name} wider than {width} bits");
        self.put(&name, Value::Signed { width, value });
    }

    #[inline(always)]
    fn count(&mut self, at: &At<'_>, name: &'static str, count: usize) {
        self.put(&at.part(name), Value::Count(count));
    }

    #[inline(always)]
    fn bytes(&mut self, at: &At<'_>, name: &'static str, bytes: &'a [u8]) {
        self.put(&at.part(name), Value::Bytes(bytes));
    }

    #[inline(always)]
    fn slots(&mut self, at: &At<'_>, name: &'static str, slots: &'a [bool]) {
        self.put(&at.part(name), Value::Slots(slots));
    }

    #[inline(always)]
    fn shown(&mut self, at: &At<'_>, name: &'static str, number: impl FnOnce() -> usize) {
        self.remark(&at.part(name), || Value::Shown(number()));
    }

    #[inline(always)]
    fn absent(&mut self, at: &At<'_>, name: &'static str) {
        self.remark(&at.part(name), || Value::Absent);
    }

    /// A clock: base, the reserved bits under their own name, extension.
    #[inline(always)]
    fn clock(
        &mut self,
        at: &At<'_>,
        stem: &'static str,
        reserved: [&'static str; 2],
        clock: (u64, u8, u16),
    ) {
        self.number(&at.field([stem, "_base"]), 33, clock.0);
        self.number(&at.field(reserved), 6, clock.1.into());
        self.number(&at.field([stem, "_ext"]), 9, clock.2.into());
    }

    /// A stamp: year, the reserved bits under their own name, day, fraction.
    #[inline(always)]
    fn stamp(
        &mut self,
        at: &At<'_>,
        stem: &'static str,
        reserved: &'static str,
        stamp: (u8, u8, u16, u32),
    ) {
        self.number(&at.field([stem, "year"]), 8, stamp.0.into());
        self.number(&at.part(reserved), 7, stamp.1.into());
        self.number(&at.field([stem, "day"]), 9, stamp.2.into());
        self.number(&at.field([stem, "day_fraction"]), 32, stamp.3.into());
    }
}
