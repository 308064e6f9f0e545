//! Document 01's refusal numbers for the Rust's errors.

use crate::error::Error;

#[derive(Debug, Clone, Copy, PartialEq, Eq)]
pub struct Refusal {
    pub number: u8,
    pub need: usize,
    pub have: usize,
}

impl core::fmt::Display for Refusal {
    fn fmt(&self, f: &mut core::fmt::Formatter<'_>) -> core::fmt::Result {
        write!(f, "R {} {} {}", self.number, self.need, self.have)
    }
}

/// A word of the Rust's text that tells the part being read, beside that part's number.
const WORDS: [(&str, u8); 20] = [
    ("reader overrun", 1),
    ("non-loop", 2),
    ("Orbital", 3),
    ("SGP4", 4),
    ("centre", 5),
    ("delivery_system_ids", 6),
    ("new_delivery", 7),
    ("obsolescent", 8),
    ("TimeAssociation", 9),
    ("Mode0", 10),
    ("Mode1 header", 11),
    ("Mode1 bitmap", 12),
    ("Mode2", 13),
    ("plan_length", 14),
    ("body header", 15),
    ("metadata", 16),
    ("usable_start", 17),
    ("usable_stop", 18),
    ("ephemeris_data", 19),
    ("covariance", 20),
];

/// Number, need and have; a text that fits no word, or two, would be news and stops the oracle.
pub fn number(error: &Error) -> Refusal {
    let Error::BufferTooShort { need, have, what } = error else {
        panic!("no refusal number for {error:?}");
    };
    let mut fitting = WORDS.iter().filter(|(word, _)| what.contains(word));
    match (fitting.next(), fitting.next()) {
        (Some(&(_, number)), None) => Refusal { number, need: *need, have: *have },
        _ => panic!("no refusal number for {error:?}"),
    }
}
