//! Field list of table id 4.

use super::super::{
    CovarianceData, EphemerisData, PositionV3Body, PositionV3Metadata, PositionV3Satellite,
    UsableTime,
};
use super::{At, Sink};

pub fn list<'a>(b: &'a PositionV3Body, l: &mut impl Sink<'a>) {
    l.bits(&At::TOP, "oem_version_major", 4, b.oem_version_major);
    l.bits(&At::TOP, "oem_version_minor", 4, b.oem_version_minor);
    let stamp = (
        b.creation_date_year,
        b.creation_date_reserved_zero_future_use,
        b.creation_date_day,
        b.creation_date_day_fraction,
    );
    l.stamp(&At::TOP, "creation_date_", "creation_date_reserved_zero_future_use", stamp);
    l.count(&At::TOP, "satellites.len", b.satellites.len());
    for (i, sat) in b.satellites.iter().enumerate() {
        satellite(sat, &At::TOP.entry("satellites", i), l);
    }
}

fn satellite<'a>(s: &'a PositionV3Satellite, at: &At<'_>, l: &mut impl Sink<'a>) {
    l.bits(at, "satellite_id", 24, s.satellite_id);
    l.bits(at, "reserved_zero_future_use", 3, s.reserved_zero_future_use);
    l.flag(at, "metadata_flag", s.metadata.is_some());
    l.flag(at, "usable_start_time_flag", s.usable_start_time_flag);
    l.flag(at, "usable_stop_time_flag", s.usable_stop_time_flag);
    l.flag(at, "ephemeris_accel_flag", s.ephemeris_accel_flag);
    l.flag(at, "covariance_flag", s.covariance_flag);
    match &s.metadata {
        Some(m) => metadata(m, &at.part("metadata"), l),
        None => l.absent(at, "metadata"),
    }
    l.bits(at, "ephemeris_data.len", 16, s.ephemeris_data.len() as u64);
    for (i, point) in s.ephemeris_data.iter().enumerate() {
        ephemeris(point, &at.entry("ephemeris_data", i), l);
    }
    match &s.covariance {
        Some(c) => covariance(c, &at.part("covariance"), l),
        None => l.absent(at, "covariance"),
    }
}

fn metadata<'a>(m: &'a PositionV3Metadata, at: &At<'_>, l: &mut impl Sink<'a>) {
    let start = (
        m.total_start_time_year,
        m.total_start_time_reserved_zero_future_use,
        m.total_start_time_day,
        m.total_start_time_day_fraction,
    );
    l.stamp(at, "total_start_time_", "total_start_time_reserved_zero_future_use", start);
    let stop = (
        m.total_stop_time_year,
        m.total_stop_time_reserved_zero_future_use,
        m.total_stop_time_day,
        m.total_stop_time_day_fraction,
    );
    l.stamp(at, "total_stop_time_", "total_stop_time_reserved_zero_future_use", stop);
    l.bits(at, "reserved_zero_future_use", 1, m.reserved_zero_future_use);
    l.flag(at, "interpolation_flag", m.interpolation_flag);
    l.bits(at, "interpolation_type", 3, m.interpolation_type.to_u8());
    l.bits(at, "interpolation_degree", 3, m.interpolation_degree);
    usable(&m.usable_start_time, at, "usable_start_time", l);
    usable(&m.usable_stop_time, at, "usable_stop_time", l);
}

fn usable<'a>(
    time: &'a Option<UsableTime>,
    at: &At<'_>,
    name: &'static str,
    l: &mut impl Sink<'a>,
) {
    match time {
        Some(t) => {
            let stamp = (t.year, t.reserved_zero_future_use, t.day, t.day_fraction);
            l.stamp(&at.part(name), "", "reserved_zero_future_use", stamp);
        }
        None => l.absent(at, name),
    }
}

fn ephemeris<'a>(e: &'a EphemerisData, at: &At<'_>, l: &mut impl Sink<'a>) {
    let stamp = (e.epoch_year, e.reserved_zero_future_use, e.epoch_day, e.epoch_day_fraction);
    l.stamp(at, "epoch_", "reserved_zero_future_use", stamp);
    l.bits(at, "ephemeris_x", 32, e.ephemeris_x);
    l.bits(at, "ephemeris_y", 32, e.ephemeris_y);
    l.bits(at, "ephemeris_z", 32, e.ephemeris_z);
    l.bits(at, "ephemeris_x_dot", 32, e.ephemeris_x_dot);
    l.bits(at, "ephemeris_y_dot", 32, e.ephemeris_y_dot);
    l.bits(at, "ephemeris_z_dot", 32, e.ephemeris_z_dot);
    match &e.acceleration {
        Some(a) => {
            let at = at.part("acceleration");
            l.bits(&at, "ephemeris_x_ddot", 32, a.ephemeris_x_ddot);
            l.bits(&at, "ephemeris_y_ddot", 32, a.ephemeris_y_ddot);
            l.bits(&at, "ephemeris_z_ddot", 32, a.ephemeris_z_ddot);
        }
        None => l.absent(at, "acceleration"),
    }
}

fn covariance<'a>(c: &'a CovarianceData, at: &At<'_>, l: &mut impl Sink<'a>) {
    let stamp = (
        c.covariance_epoch_year,
        c.covariance_epoch_reserved_zero_future_use,
        c.covariance_epoch_day,
        c.covariance_epoch_day_fraction,
    );
    l.stamp(at, "covariance_epoch_", "covariance_epoch_reserved_zero_future_use", stamp);
    for (i, element) in c.covariance_elements.iter().enumerate() {
        l.element(at, "covariance_elements", i, *element);
    }
}
