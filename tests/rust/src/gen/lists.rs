//! Well-formed entries of table ids 0, 1, 2 and 4. `want` is a refusal whose group must occur.

use super::draft::Draft;
use super::rng::Rng;

pub fn position(rng: &mut Rng, d: &mut Draft, want: u8) {
    let elements = match want {
        3 => false,
        4 => true,
        _ => rng.percent(40),
    };
    d.any(rng, 24);
    d.spare(rng, 7);
    d.knob(1, elements.into());
    if elements {
        d.group(4, 344);
        d.any(rng, 8);
        d.any(rng, 16);
        d.words(rng, 10);
    } else {
        d.group(3, 24);
        d.any(rng, 16);
        d.any(rng, 1);
        d.spare(rng, 7);
    }
}

pub fn fragment(rng: &mut Rng, d: &mut Draft, want: u8) {
    let mut sizes = [rng.size(), rng.size(), rng.size()];
    if (6..=8).contains(&want) {
        let size = &mut sizes[usize::from(want) - 6];
        *size = (*size).max(1);
    }
    let first = want == 5 || rng.percent(50);
    sized_fragment(rng, d, first, sizes);
}

/// A fragment with lists of these sizes.
pub fn sized_fragment(rng: &mut Rng, d: &mut Draft, first: bool, sizes: [usize; 3]) {
    d.any(rng, 32);
    d.knob(1, first.into());
    d.any(rng, 1);
    if first {
        centre(rng, d);
    } else {
        d.single(4, rng.reserved(4));
    }
    d.single_knob(10, sizes[0] as u64);
    d.group(6, sizes[0] * 32);
    d.words(rng, sizes[0]);
    systems(rng, d, 7, sizes[1]);
    systems(rng, d, 8, sizes[2]);
}

fn centre(rng: &mut Rng, d: &mut Draft) {
    d.group(5, 76);
    d.spare(rng, 4);
    d.any(rng, 18);
    d.spare(rng, 5);
    d.any(rng, 19);
    d.any(rng, 24);
    d.spare(rng, 6);
}

fn systems(rng: &mut Rng, d: &mut Draft, number: u8, size: usize) {
    d.single(6, rng.reserved(6));
    d.single_knob(10, size as u64);
    d.group(number, size * 80);
    for _ in 0..size {
        d.any(rng, 32);
        d.clock(rng);
    }
}

pub fn association(rng: &mut Rng, d: &mut Draft) {
    let kind = match rng.below(4) {
        0 => 1,
        1 => 0,
        _ => rng.below(16) as u64,
    };
    d.group(9, 152);
    d.knob(4, kind);
    d.any(rng, 4);
    d.clock(rng);
    d.any(rng, 64);
    d.any(rng, 32);
}

pub fn header(rng: &mut Rng, d: &mut Draft) {
    d.group(15, 64);
    d.any(rng, 4);
    d.any(rng, 4);
    d.stamp(rng);
}

/// Flags of a satellite of id 4, from the top: metadata, start, stop, acceleration, covariance.
const METADATA: u8 = 16;
const START: u8 = 8;
const STOP: u8 = 4;
const ACCELERATION: u8 = 2;
const COVARIANCE: u8 = 1;

pub fn ephemeris_satellite(rng: &mut Rng, d: &mut Draft, want: u8) {
    let forced = match want {
        16 => METADATA,
        17 => METADATA | START,
        18 => METADATA | STOP,
        20 => COVARIANCE,
        _ => 0,
    };
    let flags = rng.below(32) as u8 | forced;
    let size = rng.size().min(14).max(usize::from(want == 19));
    sized_satellite(rng, d, flags, size);
}

/// A satellite with these flags and that many ephemeris entries.
pub fn sized_satellite(rng: &mut Rng, d: &mut Draft, flags: u8, size: usize) {
    d.any(rng, 24);
    d.spare(rng, 3);
    for i in 0..5 {
        d.knob(1, u64::from(flags >> (4 - i) & 1));
    }
    if flags & METADATA != 0 {
        metadata(rng, d, flags);
    }
    d.single_knob(16, size as u64);
    let accelerated = flags & ACCELERATION != 0;
    for _ in 0..size {
        d.group(19, if accelerated { 344 } else { 248 });
        d.stamp(rng);
        d.words(rng, if accelerated { 9 } else { 6 });
    }
    if flags & COVARIANCE != 0 {
        d.group(20, 728);
        d.stamp(rng);
        d.words(rng, 21);
    }
}

fn metadata(rng: &mut Rng, d: &mut Draft, flags: u8) {
    d.group(16, 120);
    d.stamp(rng);
    d.stamp(rng);
    d.spare(rng, 1);
    d.any(rng, 1);
    d.any(rng, 3);
    d.any(rng, 3);
    if flags & START != 0 {
        d.group(17, 56);
        d.stamp(rng);
    }
    if flags & STOP != 0 {
        d.group(18, 56);
        d.stamp(rng);
    }
}
