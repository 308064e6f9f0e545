//! Field list of table id 0.

use super::super::{PositionSystem, PositionV2Body, PositionV2Satellite};
use super::{At, Sink};

pub fn list<'a>(body: &'a PositionV2Body, l: &mut impl Sink<'a>) {
    l.count(&At::TOP, "satellites.len", body.satellites.len());
    for (i, sat) in body.satellites.iter().enumerate() {
        satellite(sat, &At::TOP.entry("satellites", i), l);
    }
}

fn satellite<'a>(sat: &'a PositionV2Satellite, at: &At<'_>, l: &mut impl Sink<'a>) {
    let system = matches!(sat.position, PositionSystem::Sgp4 { .. });
    l.bits(at, "satellite_id", 24, sat.satellite_id);
    l.bits(at, "reserved_zero_future_use", 7, sat.reserved_zero_future_use);
    l.flag(at, "position_system", system);
    position(&sat.position, &at.part("position"), l);
}

fn position<'a>(position: &'a PositionSystem, at: &At<'_>, l: &mut impl Sink<'a>) {
    match position {
        PositionSystem::Orbital { orbital_position, west_east_flag, reserved_zero_future_use } => {
            l.bits(at, "orbital_position", 16, *orbital_position);
            l.flag(at, "west_east_flag", *west_east_flag);
            l.bits(at, "reserved_zero_future_use", 7, *reserved_zero_future_use);
        }
        PositionSystem::Sgp4 {
            epoch_year,
            day_of_the_year,
            day_fraction,
            mean_motion_first_derivative,
            mean_motion_second_derivative,
            drag_term,
            inclination,
            right_ascension,
            eccentricity,
            argument_of_perigree,
            mean_anomaly,
            mean_motion,
        } => {
            l.bits(at, "epoch_year", 8, *epoch_year);
            l.bits(at, "day_of_the_year", 16, *day_of_the_year);
            l.bits(at, "day_fraction", 32, *day_fraction);
            l.bits(at, "mean_motion_first_derivative", 32, *mean_motion_first_derivative);
            l.bits(at, "mean_motion_second_derivative", 32, *mean_motion_second_derivative);
            l.bits(at, "drag_term", 32, *drag_term);
            l.bits(at, "inclination", 32, *inclination);
            l.bits(at, "right_ascension", 32, *right_ascension);
            l.bits(at, "eccentricity", 32, *eccentricity);
            l.bits(at, "argument_of_perigree", 32, *argument_of_perigree);
            l.bits(at, "mean_anomaly", 32, *mean_anomaly);
            l.bits(at, "mean_motion", 32, *mean_motion);
        }
    }
}
