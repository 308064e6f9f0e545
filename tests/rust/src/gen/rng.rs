//! Numbers from a seed alone (splitmix64), so that every run gives the same cases.

/// Which extensions the clocks of a case have.
#[derive(Clone, Copy, PartialEq)]
pub enum Clocks {
    /// One case in eight has some above 299, which S-23 refuses.
    Any,
    /// No case has any. The benchmark alone asks for this.
    #[allow(dead_code)]
    Within,
}

/// The largest extension that S-23 lets pass, and the largest that 9 bits hold.
const LARGEST: u64 = 299;
const WIDEST: u64 = 511;

pub struct Rng {
    stream: u64,
    /// A stream for clocks alone: it changes their extensions, and nothing else of a case.
    clocks: u64,
    /// One clock in so many has an extension above 299; none has with 0.
    beyond: u64,
}

/// The next number of a stream.
fn next(stream: &mut u64) -> u64 {
    *stream = stream.wrapping_add(0x9e37_79b9_7f4a_7c15);
    let mut z = *stream;
    z = (z ^ (z >> 30)).wrapping_mul(0xbf58_476d_1ce4_e5b9);
    z = (z ^ (z >> 27)).wrapping_mul(0x94d0_49bb_1331_11eb);
    z ^ (z >> 31)
}

impl Rng {
    /// The streams of one case depend on the seed and the case's index, not on other cases.
    pub fn new(seed: u64, index: u64, which: Clocks) -> Self {
        let mut start = seed;
        let stream = next(&mut start) ^ index.wrapping_mul(0xd134_2543_de82_ef95);
        let mut clocks = next(&mut start) ^ stream;
        let chosen = which == Clocks::Any && next(&mut clocks) % 8 == 0;
        let often = [2, 2, 4, 30][(next(&mut clocks) % 4) as usize];
        Rng { stream, clocks, beyond: if chosen { often } else { 0 } }
    }

    pub fn next(&mut self) -> u64 {
        next(&mut self.stream)
    }

    pub fn below(&mut self, limit: usize) -> usize {
        (self.next() % limit as u64) as usize
    }

    /// From `low` to `high`, both included.
    pub fn between(&mut self, low: usize, high: usize) -> usize {
        low + self.below(high - low + 1)
    }

    pub fn percent(&mut self, share: usize) -> bool {
        self.below(100) < share
    }

    pub fn pick<T: Copy>(&mut self, from: &[T]) -> T {
        from[self.below(from.len())]
    }

    /// A value of that many bits, edges more often than chance would give them.
    pub fn value(&mut self, width: u8) -> u64 {
        let max = u64::MAX >> (64 - width);
        match self.below(12) {
            0 | 1 => 0,
            2 => max,
            3 => 1 << (width - 1),
            4 => max >> 1,
            5 => 1,
            6 => self.next() % 400 & max,
            _ => self.next() & max,
        }
    }

    /// A clock's extension: 0 and 299, or 300 and 511, more often than others.
    pub fn extension(&mut self) -> u64 {
        let drawn = self.value(9);
        if self.beyond > 0 && next(&mut self.clocks) % self.beyond == 0 {
            return match drawn {
                0 => LARGEST + 1,
                1..=LARGEST => LARGEST + 1 + drawn % (WIDEST - LARGEST),
                _ => drawn,
            };
        }
        if drawn > LARGEST {
            drawn - (WIDEST - LARGEST)
        } else {
            drawn
        }
    }

    /// Reserved bits: zero half of the time.
    pub fn reserved(&mut self, width: u8) -> u64 {
        if self.percent(50) {
            0
        } else {
            self.value(width)
        }
    }

    /// A list's size: mostly small, none included.
    pub fn size(&mut self) -> usize {
        match self.below(20) {
            0..=6 => 0,
            7..=12 => 1,
            13..=17 => self.between(2, 4),
            18 => self.between(5, 12),
            _ => self.between(10, 30),
        }
    }

    pub fn bytes(&mut self, count: usize) -> Vec<u8> {
        let style = self.below(6);
        let mut out = Vec::with_capacity(count);
        for _ in 0..count {
            out.push(match style {
                0 => 0,
                1 => 0xff,
                2 => (self.next() & self.next() & self.next()) as u8,
                _ => self.next() as u8,
            });
        }
        out
    }
}
