//! Field list of table id 1.

use super::super::{
    CellCentre, CellFragment, CellFragmentBody, NewDeliverySystem, ObsolescentDeliverySystem,
};
use super::{At, Sink};

pub fn list<'a>(body: &'a CellFragmentBody, l: &mut impl Sink<'a>) {
    l.count(&At::TOP, "fragments.len", body.fragments.len());
    for (i, fragment) in body.fragments.iter().enumerate() {
        one(fragment, &At::TOP.entry("fragments", i), l);
    }
}

fn one<'a>(f: &'a CellFragment, at: &At<'_>, l: &mut impl Sink<'a>) {
    l.bits(at, "cell_fragment_id", 32, f.cell_fragment_id);
    l.flag(at, "first_occurrence", f.first_occurrence);
    l.flag(at, "last_occurrence", f.last_occurrence);
    match &f.centre {
        Some(c) => centre(c, &at.part("centre"), l),
        None => {
            l.absent(at, "centre");
            l.bits(at, "reserved_zero_future_use_4", 4, f.reserved_zero_future_use_4);
        }
    }
    delivery_systems(f, at, l);
    l.bits(at, "reserved_zero_future_use_new", 6, f.reserved_zero_future_use_new);
    l.bits(at, "new_delivery_systems.len", 10, f.new_delivery_systems.len() as u64);
    for (i, system) in f.new_delivery_systems.iter().enumerate() {
        new_system(system, &at.entry("new_delivery_systems", i), l);
    }
    l.bits(at, "reserved_zero_future_use_obsolescent", 6, f.reserved_zero_future_use_obsolescent);
    l.bits(at, "obsolescent_delivery_systems.len", 10, f.obsolescent_delivery_systems.len() as u64);
    for (i, system) in f.obsolescent_delivery_systems.iter().enumerate() {
        old_system(system, &at.entry("obsolescent_delivery_systems", i), l);
    }
}

fn centre<'a>(c: &'a CellCentre, at: &At<'_>, l: &mut impl Sink<'a>) {
    l.bits(at, "reserved_zero_future_use_4", 4, c.reserved_zero_future_use_4);
    l.signed(at, "centre_latitude", 18, c.centre_latitude);
    l.bits(at, "reserved_zero_future_use_5", 5, c.reserved_zero_future_use_5);
    l.signed(at, "centre_longitude", 19, c.centre_longitude);
    l.bits(at, "max_distance", 24, c.max_distance);
    l.bits(at, "reserved_zero_future_use_6", 6, c.reserved_zero_future_use_6);
}

fn delivery_systems<'a>(f: &'a CellFragment, at: &At<'_>, l: &mut impl Sink<'a>) {
    l.bits(at, "delivery_system_ids.len", 10, f.delivery_system_ids.len() as u64);
    for (i, id) in f.delivery_system_ids.iter().enumerate() {
        l.element(at, "delivery_system_ids", i, *id);
    }
}

fn new_system<'a>(s: &'a NewDeliverySystem, at: &At<'_>, l: &mut impl Sink<'a>) {
    l.bits(at, "new_delivery_system_id", 32, s.new_delivery_system_id);
    let clock =
        (s.time_of_application_base, s.reserved_zero_future_use, s.time_of_application_ext);
    l.clock(at, "time_of_application", ["", "reserved_zero_future_use"], clock);
}

fn old_system<'a>(s: &'a ObsolescentDeliverySystem, at: &At<'_>, l: &mut impl Sink<'a>) {
    l.bits(at, "obsolescent_delivery_system_id", 32, s.obsolescent_delivery_system_id);
    let clock =
        (s.time_of_obsolescence_base, s.reserved_zero_future_use, s.time_of_obsolescence_ext);
    l.clock(at, "time_of_obsolescence", ["", "reserved_zero_future_use"], clock);
}
