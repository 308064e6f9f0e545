//! Names of fields as paths, put into words only where a listing is made.

use core::fmt;

/// A part of a body or a field of it: the part around it, and its own name in two halves.
#[derive(Clone, Copy)]
pub struct At<'n> {
    around: Option<&'n At<'n>>,
    halves: [&'static str; 2],
    index: Option<usize>,
}

impl<'n> At<'n> {
    /// The body itself, which has no name.
    pub const TOP: At<'static> = At { around: None, halves: ["", ""], index: None };

    #[inline(always)]
    pub fn part(&'n self, name: &'static str) -> At<'n> {
        self.field(["", name])
    }

    #[inline(always)]
    pub fn entry(&'n self, name: &'static str, index: usize) -> At<'n> {
        At { around: Some(self), halves: ["", name], index: Some(index) }
    }

    /// A name that is a stem and an ending.
    #[inline(always)]
    pub fn field(&'n self, halves: [&'static str; 2]) -> At<'n> {
        At { around: Some(self), halves, index: None }
    }
}

impl fmt::Display for At<'_> {
    fn fmt(&self, f: &mut fmt::Formatter<'_>) -> fmt::Result {
        match self.around {
            Some(around) if around.around.is_some() => write!(f, "{around}.")?,
            _ => {}
        }
        write!(f, "{}{}", self.halves[0], self.halves[1])?;
        match self.index {
            Some(index) => write!(f, "[{index}]"),
            None => Ok(()),
        }
    }
}
