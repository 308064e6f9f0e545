//! The ids of a body's entries.

use super::super::SatBody;

/// Each different id once, in the order of first appearance; none for a body that is no list.
pub fn ids(sat: &SatBody) -> Vec<u32> {
    let all: Vec<u32> = match sat {
        SatBody::PositionV2(b) => b.satellites.iter().map(|s| s.satellite_id).collect(),
        SatBody::CellFragment(b) => b.fragments.iter().map(|f| f.cell_fragment_id).collect(),
        SatBody::BeamhoppingTimePlan(b) => {
            b.plans.iter().map(|p| p.beamhopping_time_plan_id).collect()
        }
        SatBody::PositionV3(b) => b.satellites.iter().map(|s| s.satellite_id).collect(),
        SatBody::TimeAssociation(_) | SatBody::Raw(_) => Vec::new(),
    };
    let mut found = Vec::new();
    for id in all {
        if !found.contains(&id) {
            found.push(id);
        }
    }
    found
}
