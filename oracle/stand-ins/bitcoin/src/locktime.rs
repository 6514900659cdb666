//! Stands in for: `bitcoin::absolute::LockTime`, `bitcoin::relative::LockTime` and `bitcoin::Sequence`.
//!
//! What rests on it: that a sequence number is a relative locktime exactly when its top bit is clear (together with the supplied
//! relative_locktime.rs this is 01's bound for `older`), and that a locktime comes out as the number that went in. Whether it is a
//! height or a time goes into extra_props.rs alone, which no answer of the oracle reads.

use core::fmt;

pub mod absolute {
    use core::fmt;

    #[derive(Copy, Clone, PartialEq, Eq, Hash, Debug)]
    pub struct LockTime(u32);

    impl LockTime {
        pub fn from_consensus(n: u32) -> Self { LockTime(n) }
        pub fn to_consensus_u32(self) -> u32 { self.0 }
        pub fn is_block_height(&self) -> bool { self.0 < 500_000_000 }
        pub fn is_block_time(&self) -> bool { !self.is_block_height() }
    }

    impl fmt::Display for LockTime {
        fn fmt(&self, f: &mut fmt::Formatter<'_>) -> fmt::Result { self.0.fmt(f) }
    }
}

pub mod relative {
    /// Named by relative_locktime.rs for satisfaction, which the oracle doesn't do.
    #[derive(Copy, Clone, PartialEq, Eq, Debug)]
    pub struct LockTime(pub(super) u32);
}

#[derive(Copy, Clone, PartialEq, Eq, Hash, Debug)]
pub struct Sequence(u32);

impl Sequence {
    pub const ZERO: Self = Sequence(0);
    /// Set: the sequence number is no relative locktime (BIP 68).
    const DISABLED: u32 = 1 << 31;
    /// Set: counted in units of 512 seconds (BIP 68).
    const TIME: u32 = 1 << 22;

    pub fn from_consensus(n: u32) -> Self { Sequence(n) }
    pub fn to_consensus_u32(self) -> u32 { self.0 }
    pub fn from_height(n: u16) -> Self { Sequence(n as u32) }
    pub fn from_512_second_intervals(n: u16) -> Self { Sequence(n as u32 | Self::TIME) }
    pub fn is_relative_lock_time(&self) -> bool { self.0 & Self::DISABLED == 0 }
    pub fn is_height_locked(&self) -> bool { self.is_relative_lock_time() && self.0 & Self::TIME == 0 }
    pub fn is_time_locked(&self) -> bool { self.is_relative_lock_time() && self.0 & Self::TIME != 0 }
    pub fn to_relative_lock_time(&self) -> Option<relative::LockTime> {
        self.is_relative_lock_time().then_some(relative::LockTime(self.0))
    }
}

impl fmt::Display for Sequence {
    fn fmt(&self, f: &mut fmt::Formatter<'_>) -> fmt::Result { self.0.fmt(f) }
}
