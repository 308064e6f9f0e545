//! A body in the making, with the places where it is worth cutting or changing it.

use super::rng::Rng;

/// A stretch that the reading tests at once, under its refusal number.
#[derive(Clone, Copy)]
pub struct Group {
    pub number: u8,
    pub start: usize,
    pub width: usize,
}

/// A count, length or flag that steers the reading.
#[derive(Clone, Copy)]
pub struct Knob {
    pub start: usize,
    pub width: u8,
}

#[derive(Default)]
pub struct Draft {
    pub bytes: Vec<u8>,
    pub place: usize,
    pub groups: Vec<Group>,
    pub knobs: Vec<Knob>,
}

impl Draft {
    pub fn put(&mut self, width: u8, value: u64) {
        self.place += usize::from(width);
        self.bytes.resize(self.place.div_ceil(8), 0);
        self.set(self.place - usize::from(width), width, value);
    }

    /// Overwrites bits that are there already.
    pub fn set(&mut self, start: usize, width: u8, value: u64) {
        for i in 0..usize::from(width) {
            let at = start + i;
            let mask = 0x80u8 >> (at % 8);
            if value >> (usize::from(width) - 1 - i) & 1 == 1 {
                self.bytes[at / 8] |= mask;
            } else {
                self.bytes[at / 8] &= !mask;
            }
        }
    }

    pub fn group(&mut self, number: u8, width: usize) {
        self.groups.push(Group { number, start: self.place, width });
    }

    /// A field that is tested by itself.
    pub fn single(&mut self, width: u8, value: u64) {
        self.group(1, usize::from(width));
        self.put(width, value);
    }

    pub fn knob(&mut self, width: u8, value: u64) {
        self.knobs.push(Knob { start: self.place, width });
        self.put(width, value);
    }

    pub fn single_knob(&mut self, width: u8, value: u64) {
        self.group(1, usize::from(width));
        self.knob(width, value);
    }

    /// A reserved field or a plain value within a tested group.
    pub fn spare(&mut self, rng: &mut Rng, width: u8) {
        self.put(width, rng.reserved(width));
    }

    pub fn any(&mut self, rng: &mut Rng, width: u8) {
        self.put(width, rng.value(width));
    }

    pub fn words(&mut self, rng: &mut Rng, count: usize) {
        for _ in 0..count {
            self.any(rng, 32);
        }
    }

    pub fn clock(&mut self, rng: &mut Rng) {
        self.any(rng, 33);
        self.spare(rng, 6);
        self.put(9, rng.extension());
    }

    /// A clock whose fields are tested one by one.
    pub fn loose_clock(&mut self, rng: &mut Rng) {
        self.single(33, rng.value(33));
        self.single(6, rng.reserved(6));
        self.single(9, rng.extension());
    }

    pub fn stamp(&mut self, rng: &mut Rng) {
        self.any(rng, 8);
        self.spare(rng, 7);
        self.any(rng, 9);
        self.any(rng, 32);
    }

    pub fn append(&mut self, bytes: &[u8]) {
        assert!(self.place % 8 == 0, "bytes start on a byte");
        self.bytes.extend(bytes);
        self.place += bytes.len() * 8;
    }

    /// Drops all behind a place that is on a byte.
    pub fn back_to(&mut self, place: usize) {
        self.bytes.truncate(place / 8);
        self.place = place;
    }

    pub fn len(&self) -> usize {
        self.bytes.len()
    }

    /// A length that ends the body inside a group of that number, if it has one.
    pub fn cut_inside(&self, rng: &mut Rng, number: u8) -> Option<usize> {
        let fit = |g: &&Group| g.number == number && g.start.div_ceil(8) * 8 < g.start + g.width;
        let found: Vec<Group> = self.groups.iter().filter(fit).copied().collect();
        if found.is_empty() {
            return None;
        }
        let group = if rng.percent(50) { found[found.len() - 1] } else { rng.pick(&found) };
        let low = group.start.div_ceil(8);
        let high = (group.start + group.width - 1) / 8;
        Some(match rng.below(5) {
            0 | 1 => high,
            2 => low,
            _ => rng.between(low, high),
        })
    }
}
