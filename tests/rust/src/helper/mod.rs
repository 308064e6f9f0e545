//! Hands the fields of the Rust's `SatBody`, described once a table, to a listing or to a ledger.
//! A child module of sat.rs, because the reading and the writing there are private.

mod at;
mod id0;
mod id1;
mod id2;
mod id3;
mod id4;
mod ids;
mod ledger;
mod list;
mod plain;
mod refusal;
mod sink;

pub use ids::ids;
pub use list::{Field, List};
pub use plain::{plain_body, plain_into};
pub use refusal::Refusal;
pub use sink::Value;

use super::{sat_body_parse_entries, SatBody};
use at::At;
use ledger::Ledger;
use sink::Sink;

/// Longest body that document 01 lets through.
pub const LIMIT: usize = 4096;

/// Reads a body with the Rust; the limit is tested first because the Rust has none.
pub fn read(id: u8, body: &[u8]) -> Result<SatBody, Refusal> {
    if body.len() > LIMIT {
        return Err(Refusal { number: 21, need: body.len(), have: LIMIT });
    }
    sat_body_parse_entries(id, body).map_err(|e| refusal::number(&e))
}

/// Every field in the order read on the wire, with the remarks for which the lengths are needed.
fn hand<'a>(sat: &'a SatBody, lengths: &[usize], sink: &mut impl Sink<'a>) {
    match sat {
        SatBody::PositionV2(b) => id0::list(b, sink),
        SatBody::CellFragment(b) => id1::list(b, sink),
        SatBody::TimeAssociation(b) => id2::list(b, sink),
        SatBody::BeamhoppingTimePlan(b) => id3::list(b, lengths, sink),
        SatBody::PositionV3(b) => id4::list(b, sink),
        SatBody::Raw(bytes) => sink.bytes(&At::TOP, "Raw", bytes),
    }
}

/// The field list of a body, for the listing.
pub fn fields<'a>(sat: &'a SatBody, body: &[u8]) -> List<'a> {
    let mut lengths = Vec::new();
    if let SatBody::BeamhoppingTimePlan(b) = sat {
        lengths = plan_lengths(body);
        assert_eq!(b.plans.len(), lengths.len(), "the walk by lengths finds the Rust's plans");
    }
    let mut list = List::default();
    hand(sat, &lengths, &mut list);
    list
}

/// Lengths of the plans of an accepted body, which the Rust's records drop.
pub fn plan_lengths(body: &[u8]) -> Vec<usize> {
    let mut found = Vec::new();
    let mut at = 0;
    while at + 6 <= body.len() {
        let length = usize::from(body[at + 4] & 0x0f) << 8 | usize::from(body[at + 5]);
        found.push(length);
        at += 6 + length;
    }
    found
}

/// The ledger bytes of a body under its table id.
pub fn ledger(id: u8, body: &[u8]) -> Result<Vec<u8>, Refusal> {
    let sat = read(id, body)?;
    let mut out = Vec::new();
    ledger_into(id, &sat, body.len(), &mut out);
    Ok(out)
}

/// The ledger of a value that was read from a body of that length, in place of what `out` held.
pub fn ledger_into(id: u8, sat: &SatBody, body: usize, out: &mut Vec<u8>) {
    let mut ledger = Ledger::start(out, id, body);
    hand(sat, &[], &mut ledger);
    ledger.finish();
}
