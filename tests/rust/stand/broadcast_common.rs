//! Stand-in for the crate broadcast_common: the traits, the bit read, the width tests
//! and the display macro that sat.rs calls, and nothing more.

/// Reading from bytes.
pub trait Parse<'a>: Sized {
    type Error;
    fn parse(bytes: &'a [u8]) -> Result<Self, Self::Error>;
}

/// Writing to bytes.
pub trait Serialize {
    type Error;
    fn serialized_len(&self) -> usize;
    fn serialize_into(&self, buf: &mut [u8]) -> Result<usize, Self::Error>;
}

pub mod bits {
    /// The data ends before the bits asked for.
    #[derive(Debug, Clone, Copy, PartialEq, Eq)]
    pub struct Overrun;

    /// Unsigned reads of up to 64 bits, most significant bit first.
    pub struct BitReader<'a> {
        data: &'a [u8],
        place: usize,
    }

    impl<'a> BitReader<'a> {
        #[inline]
        pub fn new(data: &'a [u8]) -> Self {
            BitReader { data, place: 0 }
        }

        #[inline]
        fn past(&self, bits: usize) -> Result<usize, Overrun> {
            let end = self.place.checked_add(bits).ok_or(Overrun)?;
            if end <= self.data.len() * 8 {
                Ok(end)
            } else {
                Err(Overrun)
            }
        }

        #[inline]
        pub fn skip_bits(&mut self, bits: usize) -> Result<(), Overrun> {
            self.place = self.past(bits)?;
            Ok(())
        }

        #[inline]
        pub fn read_bits(&mut self, bits: u32) -> Result<u64, Overrun> {
            assert!(bits <= 64, "at most 64 bits at once");
            let end = self.past(bits as usize)?;
            let (first, skip) = (self.place / 8, self.place % 8);
            if cfg!(bitwise) {
                let value = one_by_one(self.data, self.place, end);
                self.place = end;
                return Ok(value);
            }
            self.place = end;
            Ok(match self.data.get(first..first + 9) {
                _ if bits == 0 => 0,
                Some(nine) => leading(nine, skip, bits),
                None => trailing(self.data, end, bits),
            })
        }
    }

    /// Bits from `place` to `end`, one after the other: the second form of the read, for `--cfg bitwise`.
    #[inline]
    fn one_by_one(data: &[u8], place: usize, end: usize) -> u64 {
        (place..end).fold(0, |value, at| value << 1 | u64::from(data[at / 8] >> (7 - at % 8) & 1))
    }

    /// Bits behind the first `skip` ones, by a word of eight bytes; they seldom reach the ninth.
    #[inline]
    fn leading(nine: &[u8], skip: usize, bits: u32) -> u64 {
        let mut top = u64::from_be_bytes(nine[..8].try_into().unwrap()) << skip;
        if bits as usize + skip > 64 {
            top |= u64::from(nine[8]) >> (8 - skip);
        }
        top >> (64 - bits)
    }

    /// Bits in front of bit `end` that start within the last eight bytes, by these as a word.
    #[inline(never)]
    fn trailing(data: &[u8], end: usize, bits: u32) -> u64 {
        let word = match data.last_chunk::<8>() {
            Some(eight) => u64::from_be_bytes(*eight),
            None => data.iter().fold(0, |word, &byte| word << 8 | u64::from(byte)),
        };
        word >> (data.len() * 8 - end) & u64::MAX >> (64 - bits)
    }
}

pub mod len {
    /// A value that its field cannot hold.
    #[derive(Debug, Clone, Copy, PartialEq, Eq)]
    pub struct FieldOverflow {
        pub field: &'static str,
        pub value: u64,
        pub max: u64,
    }

    /// The value itself if it fits in that many bits.
    #[inline]
    pub fn fit_bits(value: u64, bits: u32, field: &'static str) -> Result<u64, FieldOverflow> {
        let max = if bits >= 64 { u64::MAX } else { (1u64 << bits) - 1 };
        if value <= max {
            Ok(value)
        } else {
            Err(FieldOverflow { field, value, max })
        }
    }

    /// The value itself if it has no bit outside the mask.
    #[inline]
    pub fn fit_mask<T>(value: T, mask: T, field: &'static str) -> Result<T, FieldOverflow>
    where
        T: Copy + Into<u64>,
    {
        let (wide, max): (u64, u64) = (value.into(), mask.into());
        if wide & !max == 0 {
            Ok(value)
        } else {
            Err(FieldOverflow { field, value: wide, max })
        }
    }
}

/// Display by the type's own `name`, with the number kept by the catch-all variant.
#[macro_export]
macro_rules! impl_spec_display {
    ($kind:ident, $rest:ident) => {
        impl core::fmt::Display for $kind {
            fn fmt(&self, f: &mut core::fmt::Formatter<'_>) -> core::fmt::Result {
                match self {
                    $kind::$rest(number) => write!(f, "{} {}", self.name(), number),
                    _ => f.write_str(self.name()),
                }
            }
        }
    };
}
