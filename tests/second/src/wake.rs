//! What devices rest on: suppliers, wake sets and the chain of parents.

use crate::bench::*;
use crate::set::Set;

/// What the links and the statuses of a bench say, as sets of devices. It is
/// worked out once for the many records of a piece; the table of the bench is
/// sound.
pub(crate) struct Sets {
    /// Document 01: suppliers of each device, by runtime links only.
    pub suppliers: [Set; MAX_DEVICES as usize],
    /// Document 01: sleeping devices.
    pub sleeping: Set,
}

impl Sets {
    pub fn of(bench: &Bench) -> Sets {
        let mut suppliers = [Set::EMPTY; MAX_DEVICES as usize];
        for row in bench.runtime_links() {
            suppliers[usize::from(bench.consumer[row])].insert(bench.supplier[row].into());
        }
        let sleeping = bench.devices().filter(|&device| bench.sleeping(device));
        Sets {
            suppliers,
            sleeping: sleeping.collect(),
        }
    }

    /// The sleeping ones of a device's suppliers and its counting parent.
    pub fn sleeping_above(&self, bench: &Bench, device: usize) -> Set {
        let parent = bench.counting_parent(device).map_or(Set::EMPTY, Set::of);
        (self.suppliers[device] | parent) & self.sleeping
    }

    /// Document 01: wake set. The least set with the device, its sleeping
    /// counting parent, its sleeping suppliers, and theirs in turn; empty for
    /// a powered device.
    pub fn wake_set(&self, bench: &Bench, device: usize) -> Set {
        let mut members = Set::EMPTY;
        let mut open = Set::of(device) & self.sleeping;
        // Parents and suppliers have lower numbers: no device comes up twice.
        while let Some(member) = open.highest() {
            open.remove(member);
            members.insert(member);
            open = open | self.sleeping_above(bench, member);
        }
        members
    }
}

impl Bench {
    /// Document 01: wake set, of a device of a sound bench.
    pub fn wake_set(&self, device: usize) -> Set {
        Sets::of(self).wake_set(self, device)
    }

    /// Document 01: how many parents stand above a part.
    pub fn parents(&self, device: usize) -> u32 {
        std::iter::successors(self.parent_of(device), |&above| self.parent_of(above))
            .fold(0, |number, _| number + 1)
    }
}
