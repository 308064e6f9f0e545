//! Stand-in for the crate's table trait.

#[allow(dead_code)]
pub trait TableDef<'a>: broadcast_common::Parse<'a> {
    const TABLE_ID_RANGES: &'static [(u8, u8)];
    const NAME: &'static str;
}
