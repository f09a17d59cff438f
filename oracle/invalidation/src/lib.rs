//! Stand-in for the crate `invalidation`, whose text is not given.
//!
//! `ChannelSet` stands for its set of invalidation channels: here one bit a
//! channel in a u32, as document 01 adds it, with no more than matcher.rs
//! leans on.

use core::ops::BitOrAssign;

/// A set of channels, one bit each.
#[derive(Copy, Clone, Debug, PartialEq, Eq)]
pub struct ChannelSet(pub u32);

impl ChannelSet {
    /// The set that names no channel.
    #[must_use]
    pub const fn empty() -> Self {
        Self(0)
    }
}

impl BitOrAssign for ChannelSet {
    fn bitor_assign(&mut self, other: Self) {
        self.0 |= other.0;
    }
}
