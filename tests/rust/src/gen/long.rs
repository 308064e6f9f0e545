//! Bodies near the limit of 4,096 bytes, and some over it.

use super::draft::Draft;
use super::lists;
use super::plans::{self, End};
use super::rng::Rng;

/// Bytes that may stand behind the last entry without being read as one more.
const LEFTOVER: [usize; 5] = [3, 4, 5000, 5, 3];

/// Many entries and leftover bytes, `target` bytes in all.
pub fn many(rng: &mut Rng, id: usize, target: usize) -> Vec<u8> {
    let mut d = Draft::default();
    for _ in 0..40 {
        d = pack(rng, id, target);
        if target - d.len() <= LEFTOVER[id] {
            break;
        }
    }
    let rest = target - d.len();
    d.append(&rng.bytes(rest));
    d.bytes
}

/// As many entries as fit; when they no longer do, small ones are tried.
fn pack(rng: &mut Rng, id: usize, target: usize) -> Draft {
    let mut d = Draft::default();
    if id == 2 {
        lists::association(rng, &mut d);
        return d;
    }
    if id == 4 {
        lists::header(rng, &mut d);
    }
    let mut misses = 0;
    while misses < 20 && d.len() < target {
        let place = d.place;
        entry(rng, &mut d, id, misses > 10);
        if d.len() > target {
            d.back_to(place);
            misses += 1;
        }
    }
    d
}

fn entry(rng: &mut Rng, d: &mut Draft, id: usize, small: bool) {
    match (id, small) {
        (0, false) => lists::position(rng, d, 0),
        (0, true) => lists::position(rng, d, 3),
        (1, false) => lists::fragment(rng, d, 0),
        (1, true) => lists::sized_fragment(rng, d, false, [0, 0, 0]),
        (3, false) => {
            let (mode, size) = (rng.below(4) as u8, rng.below(60));
            let end = rng.pick(&[End::Exact, End::Filler]);
            plans::sized_plan(rng, d, mode, size, end);
        }
        (3, true) => {
            let size = rng.below(20);
            plans::sized_plan(rng, d, 3, size, End::Exact);
        }
        (_, false) => lists::ephemeris_satellite(rng, d, 0),
        (_, true) => lists::sized_satellite(rng, d, 0, 0),
    }
}

/// One entry with a list as large as `target` allows.
pub fn single(rng: &mut Rng, id: usize, target: usize) -> Vec<u8> {
    let mut d = Draft::default();
    match id {
        0 => return many(rng, 0, target),
        1 => big_fragment(rng, &mut d, target),
        2 => lists::association(rng, &mut d),
        3 => big_plan(rng, &mut d, target),
        _ => big_satellite(rng, &mut d, target),
    }
    let rest = target.saturating_sub(d.len());
    if rest <= LEFTOVER[id] {
        d.append(&rng.bytes(rest));
    }
    d.bytes
}

fn big_fragment(rng: &mut Rng, d: &mut Draft, target: usize) {
    let first = rng.percent(50);
    let room = target - if first { 19 } else { 10 };
    let sizes = match rng.below(3) {
        0 => [room / 4, 0, 0],
        1 => [room % 10 / 4, room / 10, 0],
        _ => [room % 10 / 4, 0, room / 10],
    };
    lists::sized_fragment(rng, d, first, sizes.map(|n: usize| n.min(1023)));
}

fn big_plan(rng: &mut Rng, d: &mut Draft, target: usize) {
    if rng.percent(50) {
        let slots = (target - 23) * 8 - rng.below(8);
        plans::sized_plan(rng, d, 1, slots, End::Exact);
    } else {
        plans::sized_plan(rng, d, 3, target - 19, End::Exact);
    }
}

fn big_satellite(rng: &mut Rng, d: &mut Draft, target: usize) {
    lists::header(rng, d);
    let flags = rng.below(32) as u8;
    let entry = if flags & 2 != 0 { 43 } else { 31 };
    let fixed = 8 + 4 + 15 + 14 + 2 + 91;
    lists::sized_satellite(rng, d, flags, (target - fixed) / entry);
    while d.len() + 6 <= target {
        lists::sized_satellite(rng, d, 0, 0);
    }
}
