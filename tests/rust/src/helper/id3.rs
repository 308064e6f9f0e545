//! Field list of table id 3. Plan lengths are shown, but are no part of the ledger.

use super::super::{BeamhoppingMode, BeamhoppingPlan, BeamhoppingTimePlanBody};
use super::{At, Sink};

/// `lengths` has the length of each plan; a sink that keeps no remarks does not look there.
pub fn list<'a>(body: &'a BeamhoppingTimePlanBody, lengths: &[usize], l: &mut impl Sink<'a>) {
    l.count(&At::TOP, "plans.len", body.plans.len());
    for (i, plan) in body.plans.iter().enumerate() {
        one(plan, || lengths[i], &At::TOP.entry("plans", i), l);
    }
}

fn one<'a>(
    p: &'a BeamhoppingPlan,
    length: impl FnOnce() -> usize,
    at: &At<'_>,
    l: &mut impl Sink<'a>,
) {
    l.bits(at, "beamhopping_time_plan_id", 32, p.beamhopping_time_plan_id);
    l.bits(at, "reserved_zero_future_use_4", 4, p.reserved_zero_future_use_4);
    l.shown(at, "plan_length", length);
    l.bits(at, "reserved_zero_future_use_mode", 6, p.reserved_zero_future_use_mode);
    l.bits(at, "time_plan_mode", 2, p.time_plan_mode.to_u8());
    let application = (
        p.time_of_application_base,
        p.time_of_application_reserved_zero_future_use,
        p.time_of_application_ext,
    );
    clock(at, "time_of_application", application, l);
    let cycle = (
        p.cycle_duration_base,
        p.cycle_duration_reserved_zero_future_use,
        p.cycle_duration_ext,
    );
    clock(at, "cycle_duration", cycle, l);
    mode(&p.mode, &at.part("mode"), l);
}

fn clock<'a>(at: &At<'_>, stem: &'static str, clock: (u64, u8, u16), l: &mut impl Sink<'a>) {
    l.clock(at, stem, [stem, "_reserved_zero_future_use"], clock);
}

fn mode<'a>(mode: &'a BeamhoppingMode, at: &At<'_>, l: &mut impl Sink<'a>) {
    match mode {
        BeamhoppingMode::Mode0 {
            dwell_duration_base,
            dwell_duration_ext,
            on_time_base,
            on_time_ext,
            dwell_duration_reserved_zero_future_use: dwell_r,
            on_time_reserved_zero_future_use: on_time_r,
        } => {
            clock(at, "dwell_duration", (*dwell_duration_base, *dwell_r, *dwell_duration_ext), l);
            clock(at, "on_time", (*on_time_base, *on_time_r, *on_time_ext), l);
        }
        BeamhoppingMode::Mode1 { .. } => bitmap(mode, at, l),
        BeamhoppingMode::Mode2 { .. } => grid(mode, at, l),
        BeamhoppingMode::Reserved(raw) => {
            l.count(at, "Reserved.len", raw.len());
            l.bytes(at, "Reserved", raw);
        }
    }
}

fn bitmap<'a>(mode: &'a BeamhoppingMode, at: &At<'_>, l: &mut impl Sink<'a>) {
    let BeamhoppingMode::Mode1 {
        bit_map_size,
        current_slot,
        slot_transmission_on,
        reserved_zero_future_use_size,
        reserved_zero_future_use_slot,
    } = mode
    else {
        return;
    };
    l.bits(at, "reserved_zero_future_use_size", 1, *reserved_zero_future_use_size);
    l.bits(at, "bit_map_size", 15, *bit_map_size);
    l.bits(at, "reserved_zero_future_use_slot", 1, *reserved_zero_future_use_slot);
    l.bits(at, "current_slot", 15, *current_slot);
    l.slots(at, "slot_transmission_on", slot_transmission_on);
    l.shown(at, "slots_on", || slot_transmission_on.iter().filter(|&&on| on).count());
}

fn grid<'a>(mode: &'a BeamhoppingMode, at: &At<'_>, l: &mut impl Sink<'a>) {
    let BeamhoppingMode::Mode2 {
        grid_size_base,
        grid_size_ext,
        revisit_duration_base,
        revisit_duration_ext,
        sleep_time_base,
        sleep_time_ext,
        sleep_duration_base,
        sleep_duration_ext,
        grid_size_reserved_zero_future_use: grid_r,
        revisit_duration_reserved_zero_future_use: revisit_r,
        sleep_time_reserved_zero_future_use: sleep_time_r,
        sleep_duration_reserved_zero_future_use: sleep_r,
    } = mode
    else {
        return;
    };
    clock(at, "grid_size", (*grid_size_base, *grid_r, *grid_size_ext), l);
    clock(at, "revisit_duration", (*revisit_duration_base, *revisit_r, *revisit_duration_ext), l);
    clock(at, "sleep_time", (*sleep_time_base, *sleep_time_r, *sleep_time_ext), l);
    clock(at, "sleep_duration", (*sleep_duration_base, *sleep_r, *sleep_duration_ext), l);
}
