//! Plans of table id 3, with every way in which a plan's length can fit its fields or the data.

use super::draft::Draft;
use super::rng::Rng;

/// How the plan's length is chosen.
#[derive(Clone, Copy, PartialEq)]
pub enum End {
    Exact,
    Filler,
    /// Longer than what follows, by one byte or by more.
    Past,
    /// Some filler is there, but less than the length says.
    PastFiller,
    Short,
    Any,
}

pub fn plan(rng: &mut Rng, d: &mut Draft, want: u8, last: bool) {
    let mode = match want {
        10 => 0,
        11 | 12 => 1,
        13 => 2,
        _ => rng.below(4) as u8,
    };
    let size = match mode {
        1 => slots(rng, want == 12),
        _ => rng.size(),
    };
    let end = if want == 14 { End::Short } else { ending(rng, last) };
    sized_plan(rng, d, mode, size, end);
}

/// A bitmap's size: whole bytes, one off, or any.
fn slots(rng: &mut Rng, some: bool) -> usize {
    let size = match rng.below(6) {
        0 => rng.below(2),
        1 => 8 * rng.between(1, 6),
        2 => 8 * rng.between(1, 6) + 1,
        3 => 8 * rng.between(1, 6) - 1,
        4 => rng.between(1, 20),
        _ => rng.between(1, 200),
    };
    size.max(usize::from(some))
}

fn ending(rng: &mut Rng, last: bool) -> End {
    match rng.below(if last { 100 } else { 60 }) {
        0..=34 => End::Exact,
        35..=53 => End::Filler,
        54..=56 => End::Short,
        57..=59 => End::Any,
        60..=84 => End::Past,
        _ => End::PastFiller,
    }
}

/// A plan with that many slots (mode 1) or raw bytes (mode 3).
pub fn sized_plan(rng: &mut Rng, d: &mut Draft, mode: u8, size: usize, end: End) {
    d.any(rng, 32);
    d.spare(rng, 4);
    let length_at = d.place;
    d.knob(12, 0);
    let start = d.len();
    d.single(6, rng.reserved(6));
    d.single_knob(2, mode.into());
    d.loose_clock(rng);
    d.loose_clock(rng);
    mode_fields(rng, d, mode, size);
    let used = d.len() - start;
    let length = finish(rng, d, used, end);
    d.set(length_at, 12, length.min(4095) as u64);
}

fn mode_fields(rng: &mut Rng, d: &mut Draft, mode: u8, size: usize) {
    match mode {
        0 => {
            d.group(10, 96);
            d.clock(rng);
            d.clock(rng);
        }
        1 => bitmap(rng, d, size),
        2 => {
            d.group(13, 192);
            for _ in 0..4 {
                d.clock(rng);
            }
        }
        _ => d.append(&rng.bytes(size)),
    }
}

/// Slots, and padding that is sometimes set although it means nothing.
fn bitmap(rng: &mut Rng, d: &mut Draft, size: usize) {
    d.group(11, 32);
    d.spare(rng, 1);
    d.knob(15, size as u64);
    d.spare(rng, 1);
    d.any(rng, 15);
    d.group(12, size);
    let mut slots = rng.bytes(size.div_ceil(8));
    if size % 8 != 0 {
        let padding = 0xffu8 >> (size % 8);
        let last = slots.len() - 1;
        match rng.below(3) {
            0 => slots[last] |= padding,
            1 => slots[last] &= !padding,
            _ => {}
        }
    }
    d.append(&slots);
}

/// Adds filler where the ending asks for it and gives the plan's length.
fn finish(rng: &mut Rng, d: &mut Draft, used: usize, end: End) -> usize {
    match end {
        End::Exact => used,
        End::Filler => {
            let filler = rng.between(1, 9);
            d.append(&rng.bytes(filler));
            used + filler
        }
        End::Past => used + past(rng, used),
        End::PastFiller => {
            let filler = rng.between(1, 9);
            d.append(&rng.bytes(filler));
            used + filler + past(rng, used + filler)
        }
        End::Short => match rng.below(3) {
            0 => used - 1,
            1 => rng.below(14).min(used - 1),
            _ => rng.below(used),
        },
        End::Any => rng.below(4096),
    }
}

/// Bytes by which a plan passes the data: often one, sometimes all that 12 bits hold.
fn past(rng: &mut Rng, used: usize) -> usize {
    match rng.below(4) {
        0 | 1 => 1,
        2 => rng.between(2, 40),
        _ => 4095usize.saturating_sub(used).max(1),
    }
}
