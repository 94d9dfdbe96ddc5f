//! Sets of the numbers 0 to 63, of items or of containers, a bit each.

use std::ops::{BitAnd, BitOr, BitOrAssign, Not, Sub, SubAssign};

#[derive(Clone, Copy, PartialEq, Eq, Default, Debug)]
pub struct Set(pub u64);

impl Set {
    pub const EMPTY: Set = Set(0);

    /// The set of one index below 64.
    pub fn only(index: usize) -> Set {
        Set(1 << (index % 64))
    }

    pub fn is_empty(self) -> bool {
        self.0 == 0
    }

    pub fn has(self, index: usize) -> bool {
        self.meets(Set::only(index))
    }

    /// Whether the two have a member in common.
    pub fn meets(self, other: Set) -> bool {
        !(self & other).is_empty()
    }

    /// Takes out the lowest member.
    pub fn pop(&mut self) -> Option<u8> {
        if self.is_empty() {
            return None;
        }
        let lowest = self.0.trailing_zeros() as u8;
        self.0 &= self.0 - 1;
        Some(lowest)
    }

    /// The members, rising.
    pub fn members(self) -> Members {
        Members(self)
    }
}

pub struct Members(Set);

impl Iterator for Members {
    type Item = u8;

    fn next(&mut self) -> Option<u8> {
        self.0.pop()
    }
}

impl BitOr for Set {
    type Output = Set;

    fn bitor(self, other: Set) -> Set {
        Set(self.0 | other.0)
    }
}

impl BitAnd for Set {
    type Output = Set;

    fn bitand(self, other: Set) -> Set {
        Set(self.0 & other.0)
    }
}

impl Not for Set {
    type Output = Set;

    fn not(self) -> Set {
        Set(!self.0)
    }
}

impl Sub for Set {
    type Output = Set;

    fn sub(self, other: Set) -> Set {
        self & !other
    }
}

impl BitOrAssign for Set {
    fn bitor_assign(&mut self, other: Set) {
        *self = *self | other;
    }
}

impl SubAssign for Set {
    fn sub_assign(&mut self, other: Set) {
        *self = *self - other;
    }
}
