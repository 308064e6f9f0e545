//! Field list of table id 2.

use super::super::TimeAssociationBody;
use super::{At, Sink};

pub fn list<'a>(b: &'a TimeAssociationBody, l: &mut impl Sink<'a>) {
    l.bits(&At::TOP, "association_type", 4, b.association_type.to_u8());
    match &b.leap_info {
        Some(leap) => {
            let at = At::TOP.part("leap_info");
            l.flag(&at, "leap59", leap.leap59);
            l.flag(&at, "leap61", leap.leap61);
            l.flag(&at, "pastleap59", leap.pastleap59);
            l.flag(&at, "pastleap61", leap.pastleap61);
        }
        None => {
            l.absent(&At::TOP, "leap_info");
            l.bits(&At::TOP, "reserved_zero_future_use_4", 4, b.reserved_zero_future_use_4);
        }
    }
    let clock = (b.ncr_base, b.ncr_reserved_zero_future_use, b.ncr_ext);
    l.clock(&At::TOP, "ncr", ["ncr", "_reserved_zero_future_use"], clock);
    l.bits(&At::TOP, "association_timestamp_seconds", 64, b.association_timestamp_seconds);
    l.bits(&At::TOP, "association_timestamp_nanoseconds", 32, b.association_timestamp_nanoseconds);
}
