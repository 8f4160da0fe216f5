//! Sets of devices.

use std::ops::{BitAnd, BitOr};

/// A set of devices: bit p stands for device p. A sound bench has at most 64.
#[derive(Clone, Copy, Debug, Default, PartialEq, Eq)]
pub struct Set(u64);

impl Set {
    /// The set with no device.
    pub const EMPTY: Set = Set(0);

    /// The set with this device alone.
    pub fn of(device: usize) -> Set {
        Set(1 << device)
    }

    pub fn contains(self, device: usize) -> bool {
        self & Set::of(device) != Set::EMPTY
    }

    pub fn is_empty(self) -> bool {
        self == Set::EMPTY
    }

    /// The lowest-numbered device.
    pub fn lowest(self) -> Option<usize> {
        (!self.is_empty()).then(|| self.0.trailing_zeros() as usize)
    }

    /// The highest-numbered device.
    pub fn highest(self) -> Option<usize> {
        self.0.checked_ilog2().map(|device| device as usize)
    }

    pub fn insert(&mut self, device: usize) {
        self.0 |= 1 << device;
    }

    pub fn remove(&mut self, device: usize) {
        self.0 &= !(1 << device);
    }

    /// The devices, from the lowest number up.
    pub fn devices(mut self) -> impl Iterator<Item = usize> {
        std::iter::from_fn(move || {
            let device = self.lowest()?;
            self.remove(device);
            Some(device)
        })
    }
}

impl BitAnd for Set {
    type Output = Set;

    fn bitand(self, other: Set) -> Set {
        Set(self.0 & other.0)
    }
}

impl BitOr for Set {
    type Output = Set;

    fn bitor(self, other: Set) -> Set {
        Set(self.0 | other.0)
    }
}

impl FromIterator<usize> for Set {
    fn from_iter<I: IntoIterator<Item = usize>>(devices: I) -> Set {
        devices
            .into_iter()
            .fold(Set::EMPTY, |set, device| set | Set::of(device))
    }
}
