//! The calls that are compared, and the check that the archive's answers are the Rust's.

use crate::sets::Case;
use crate::tables::sat::helper;
use std::hint::black_box;

extern "C" {
    fn sat_ledger_write(id: u8, body: *const u8, n: usize, out: *mut u8, room: usize) -> u32;
    fn sat_ledger_write_length(id: u8, body: *const u8, n: usize, room: usize) -> usize;
    fn sat_ledger_read(ledger: *const u8, n: usize, out: *mut u8, room: usize) -> u32;
    fn sat_ledger_read_length(ledger: *const u8, n: usize, room: usize) -> usize;
    fn sat_plain_body(id: u8, body: *const u8, n: usize, out: *mut u8, room: usize) -> u32;
}

#[derive(Clone, Copy, PartialEq)]
pub enum Call {
    /// The Rust's parse of a body.
    Parse,
    /// The same, and the helper's ledger of the value.
    RustLedger,
    /// The archive's ledger of a body.
    Write,
    /// The Rust's own writing of a value that was parsed before.
    RustPlain,
    /// The archive's plain body of a ledger.
    Read,
    /// The archive's plain body of a body; its instructions are counted, its times not taken.
    PlainBody,
}

impl Call {
    /// Those that are timed.
    pub const ALL: [Call; 5] =
        [Call::Parse, Call::RustLedger, Call::Write, Call::RustPlain, Call::Read];

    pub fn named(name: &str) -> Option<Call> {
        let names = ["parse", "rust-ledger", "write", "rust-plain", "read"];
        if name == "plain-body" {
            return Some(Call::PlainBody);
        }
        names.iter().position(|&n| n == name).map(|i| Call::ALL[i])
    }
}

/// Buffers that all calls use again and again; nobody clears them in between.
pub struct Room {
    ledger: Vec<u8>,
    out: Vec<u8>,
}

impl Default for Room {
    fn default() -> Self {
        Room { ledger: Vec::with_capacity(8198), out: vec![0; 8198] }
    }
}

/// The call on every case, `turns` times over. A name for the counter, hence not inlined.
#[no_mangle]
#[inline(never)]
pub fn counted(call: Call, cases: &[Case], turns: usize, room: &mut Room) {
    for _ in 0..turns {
        match call {
            Call::Parse => cases.iter().for_each(parse),
            Call::RustLedger => cases.iter().for_each(|c| rust_ledger(c, &mut room.ledger)),
            Call::Write => cases.iter().for_each(|c| write(c.id, &c.body, &mut room.out)),
            Call::RustPlain => cases.iter().for_each(|c| rust_plain(c, &mut room.out)),
            Call::Read => cases.iter().for_each(|c| read(&c.ledger, &mut room.out)),
            Call::PlainBody => cases.iter().for_each(|c| plain_body(c.id, &c.body, &mut room.out)),
        }
    }
}

fn parse(case: &Case) {
    drop(black_box(helper::read(case.id, &case.body)));
}

fn rust_ledger(case: &Case, out: &mut Vec<u8>) {
    if let Ok(sat) = helper::read(case.id, &case.body) {
        helper::ledger_into(case.id, &sat, case.body.len(), out);
        black_box(out);
    }
}

fn rust_plain(case: &Case, out: &mut [u8]) {
    assert!(helper::plain_into(&case.sat, black_box(out)).is_ok());
}

fn write(id: u8, body: &[u8], out: &mut [u8]) {
    // SAFETY: pointers and lengths are those of two slices that do not overlap.
    let r = unsafe { sat_ledger_write(id, body.as_ptr(), body.len(), out.as_mut_ptr(), out.len()) };
    assert_eq!(r, 0);
}

fn read(ledger: &[u8], out: &mut [u8]) {
    // SAFETY: as above.
    let r = unsafe { sat_ledger_read(ledger.as_ptr(), ledger.len(), out.as_mut_ptr(), out.len()) };
    assert_eq!(r, 0);
}

fn plain_body(id: u8, body: &[u8], out: &mut [u8]) {
    // SAFETY: as above.
    let r = unsafe { sat_plain_body(id, body.as_ptr(), body.len(), out.as_mut_ptr(), out.len()) };
    assert_eq!(r, 0);
}

/// The archive makes the helper's ledger, and from it, and of the body itself, the Rust's plain body.
pub fn check(case: &Case) {
    let (body, ledger, plain) = (&case.body, &case.ledger, &case.plain);
    let mut out = vec![0u8; 8198];
    write(case.id, body, &mut out);
    assert!(out.starts_with(ledger), "the archive's ledger is another one");
    // SAFETY: pointers and lengths are those of a slice; nothing is written.
    let length = unsafe { sat_ledger_write_length(case.id, body.as_ptr(), body.len(), out.len()) };
    assert_eq!(length, ledger.len());
    read(ledger, &mut out);
    assert!(out.starts_with(plain), "the archive's plain body is another one");
    // SAFETY: as above.
    let length = unsafe { sat_ledger_read_length(ledger.as_ptr(), ledger.len(), out.len()) };
    assert_eq!(length, plain.len());
    out.fill(0);
    plain_body(case.id, body, &mut out);
    assert!(out.starts_with(plain), "the archive's plain body of the body is another one");
}
