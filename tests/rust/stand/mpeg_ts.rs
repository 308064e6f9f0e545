//! Stand-in for the crate mpeg_ts: the one type that sat.rs names.

pub mod pid {
    /// A packet identifier of 13 bits.
    #[derive(Debug, Clone, Copy, PartialEq, Eq)]
    pub struct Pid(u16);

    impl Pid {
        pub const fn new(value: u16) -> Self {
            Pid(value & 0x1fff)
        }

        pub const fn value(self) -> u16 {
            self.0
        }
    }
}
