//! The case generator. A case is the id byte and the body behind it.

mod draft;
mod lists;
mod long;
mod plans;
mod rng;

use draft::Draft;
pub use rng::Clocks;
use rng::Rng;

/// Case number `index` of a seed; bodies longer than `longest` are cut there.
pub fn case(seed: u64, index: u64, longest: usize, clocks: Clocks) -> Vec<u8> {
    let mut rng = Rng::new(seed, index, clocks);
    let mut case = match rng.below(100) {
        0..=32 => intact(&mut rng),
        33..=40 => with_leftover(&mut rng),
        41..=68 => refused(&mut rng),
        69..=74 => shortened(&mut rng),
        75..=83 => turned(&mut rng),
        84..=89 => flipped(&mut rng),
        90..=93 => random(&mut rng),
        94..=97 => raw(&mut rng),
        _ => any_long(&mut rng),
    };
    case.truncate(longest + 1);
    case
}

/// Long cases in a fixed round of ids (the sixth is raw) and forms.
pub fn long_case(seed: u64, index: u64, clocks: Clocks) -> Vec<u8> {
    let mut rng = Rng::new(seed, index, clocks);
    let id = (index % 6) as usize;
    let shorter = rng.between(1000, 4095);
    match index / 6 % 4 {
        0 => long(&mut rng, id, 4096, false),
        1 => long(&mut rng, id, 4096, true),
        2 => long(&mut rng, id, shorter, false),
        _ => long(&mut rng, id, 4097, false),
    }
}

fn long(rng: &mut Rng, id: usize, length: usize, single: bool) -> Vec<u8> {
    if id > 4 {
        let number = rng.between(5, 255);
        return joined(number, &rng.bytes(length));
    }
    let body = if single { long::single(rng, id, length) } else { long::many(rng, id, length) };
    joined(id, &body)
}

fn any_long(rng: &mut Rng) -> Vec<u8> {
    let (id, single) = (rng.below(6), rng.percent(40));
    let length = match rng.below(10) {
        0..=2 => 4096,
        3 => 4095,
        4..=6 => rng.between(600, 4096),
        7 | 8 => 4097,
        _ => rng.between(4098, 4500),
    };
    long(rng, id, length, single && length <= 4096)
}

fn joined(id: usize, body: &[u8]) -> Vec<u8> {
    let mut case = vec![id as u8];
    case.extend(body);
    case
}

fn entries(rng: &mut Rng) -> usize {
    match rng.below(20) {
        0 => 0,
        1..=11 => 1,
        12..=16 => 2,
        17 | 18 => rng.between(3, 5),
        _ => rng.between(6, 12),
    }
}

/// A whole body; the last entry has the group that `want` names.
fn draft(rng: &mut Rng, id: usize, want: u8) -> Draft {
    let mut d = Draft::default();
    if id == 2 {
        lists::association(rng, &mut d);
        return d;
    }
    if id == 4 {
        lists::header(rng, &mut d);
    }
    let count = entries(rng).max(usize::from(want != 0));
    for i in 0..count {
        let last = i + 1 == count;
        let want = if last { want } else { 0 };
        match id {
            0 => lists::position(rng, &mut d, want),
            1 => lists::fragment(rng, &mut d, want),
            3 => plans::plan(rng, &mut d, want, last),
            _ => lists::ephemeris_satellite(rng, &mut d, want),
        }
    }
    d
}

fn any_id(rng: &mut Rng) -> usize {
    rng.pick(&[0, 0, 0, 0, 1, 1, 1, 1, 1, 2, 2, 3, 3, 3, 3, 3, 3, 3, 4, 4, 4, 4, 4, 4])
}

fn any_draft(rng: &mut Rng) -> (usize, Draft) {
    let id = any_id(rng);
    let d = draft(rng, id, 0);
    (id, d)
}

fn intact(rng: &mut Rng) -> Vec<u8> {
    let (id, d) = any_draft(rng);
    joined(id, &d.bytes)
}

fn with_leftover(rng: &mut Rng) -> Vec<u8> {
    let (id, mut d) = any_draft(rng);
    let most = [3, 4, 40, 5, 3][id];
    let count = if rng.percent(85) { rng.between(1, most) } else { most + 1 };
    d.append(&rng.bytes(count));
    joined(id, &d.bytes)
}

/// Aims at one refusal of 1 to 20, by the group or the plan length that it belongs to.
fn refused(rng: &mut Rng) -> Vec<u8> {
    let want = rng.between(1, 20) as u8;
    let id = match want {
        1 => rng.pick(&[1, 3, 4]),
        2 => return joined(rng.pick(&[2, 4]), &[]),
        3 | 4 => 0,
        5..=8 => 1,
        9 => 2,
        10..=14 => 3,
        _ => 4,
    };
    let d = draft(rng, id, want);
    let length = d.cut_inside(rng, want).unwrap_or(d.len());
    joined(id, &d.bytes[..length])
}

/// Cut one byte short, beside a tested group, or anywhere.
fn shortened(rng: &mut Rng) -> Vec<u8> {
    let (id, d) = any_draft(rng);
    let length = match rng.below(3) {
        0 => d.len().saturating_sub(1),
        1 if !d.groups.is_empty() => {
            let group = rng.pick(&d.groups);
            ((group.start + group.width) / 8 + rng.below(3)).saturating_sub(1)
        }
        _ => rng.below(d.len() + 1),
    };
    joined(id, &d.bytes[..length.min(d.len())])
}

/// A count, length or flag gets another value.
fn turned(rng: &mut Rng) -> Vec<u8> {
    let (id, mut d) = any_draft(rng);
    for _ in 0..rng.between(1, 2) {
        if d.knobs.is_empty() {
            break;
        }
        let knob = rng.pick(&d.knobs);
        let old = value_at(&d, knob.start, knob.width);
        let max = (1u64 << knob.width) - 1;
        let new = match rng.below(6) {
            0 => old + 1 & max,
            1 => old.wrapping_sub(1) & max,
            2 => 0,
            3 => max,
            _ => rng.value(knob.width),
        };
        d.set(knob.start, knob.width, new);
    }
    joined(id, &d.bytes)
}

fn value_at(d: &Draft, start: usize, width: u8) -> u64 {
    (start..start + usize::from(width))
        .fold(0, |v, at| v << 1 | u64::from(d.bytes[at / 8] >> (7 - at % 8) & 1))
}

/// Some bits or a byte damaged; now and then the id too.
fn flipped(rng: &mut Rng) -> Vec<u8> {
    let (id, d) = any_draft(rng);
    let mut case = joined(id, &d.bytes);
    for _ in 0..rng.between(1, 4) {
        if case.len() > 1 {
            let at = rng.between(1, case.len() - 1);
            case[at] ^= if rng.percent(75) { 1 << rng.below(8) } else { rng.next() as u8 };
        }
    }
    if rng.percent(10) {
        case[0] = rng.below(6) as u8;
    }
    case
}

fn random(rng: &mut Rng) -> Vec<u8> {
    let id = rng.below(5);
    let longest = rng.pick(&[8, 20, 40, 100, 300]);
    let length = rng.below(longest);
    joined(id, &rng.bytes(length))
}

fn raw(rng: &mut Rng) -> Vec<u8> {
    let id = match rng.below(4) {
        0 => 5,
        1 => 255,
        2 => rng.pick(&[6, 63, 64, 127, 128, 254]),
        _ => rng.between(5, 255),
    };
    let longest = rng.pick(&[1, 2, 9, 60, 200]);
    let length = rng.below(longest);
    joined(id, &rng.bytes(length))
}
