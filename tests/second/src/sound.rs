//! Document 01: a sound bench.

use crate::bench::*;
use crate::table::{ascends, device_entry_good, link_entry_good};
use crate::wake::Sets;

/// Is every value zero? Without an early end several are looked at at once.
fn all_zero<T: Copy + Into<u16>>(values: &[T]) -> bool {
    values.iter().fold(0, |any, &value| any | value.into()) == 0
}

impl Bench {
    /// Document 01: sound. Every clause of the sentence, in its order.
    pub fn sound(&self) -> bool {
        self.sound_sets().is_some()
    }

    /// The sets of a sound bench; none where it isn't sound.
    pub(crate) fn sound_sets(&self) -> Option<Sets> {
        let columns_sound = self.sizes_sound()
            && self.devices_sound()
            && self.links_sound()
            && self.unused_rows_zero()
            && self.ranges_sound()
            && self.recount() == (self.children, self.linked);
        if !columns_sound {
            return None;
        }
        let sets = Sets::of(self);
        let sound = self.supply_sound(&sets) && self.carried_sound() && self.callback_sound(&sets);
        sound.then_some(sets)
    }

    /// n from 1 to 64, m from 0 to 128.
    fn sizes_sound(&self) -> bool {
        (1..=MAX_DEVICES).contains(&self.n) && self.m <= MAX_LINKS
    }

    /// The part entries keep the table's rules.
    fn devices_sound(&self) -> bool {
        (0..self.n).all(|device| {
            let row = usize::from(device);
            device_entry_good(device, self.parent[row], self.ignore[row])
        })
    }

    /// The link entries keep the table's rules, their order too.
    fn links_sound(&self) -> bool {
        let mut before = None;
        self.link_rows().all(|row| {
            let pair = (self.consumer[row], self.supplier[row]);
            let good = link_entry_good(self.n, pair, self.flags[row]) && ascends(before, pair);
            before = Some(pair);
            good
        })
    }

    /// Rows past n and past m are zero in every column.
    fn unused_rows_zero(&self) -> bool {
        let (n, m) = (usize::from(self.n), usize::from(self.m));
        all_zero(&self.parent[n..])
            && all_zero(&self.ignore[n..])
            && all_zero(&self.status[n..])
            && all_zero(&self.holds[n..])
            && all_zero(&self.depth[n..])
            && all_zero(&self.error[n..])
            && all_zero(&self.children[n..])
            && all_zero(&self.linked[n..])
            && all_zero(&self.consumer[m..])
            && all_zero(&self.supplier[m..])
            && all_zero(&self.flags[m..])
    }

    /// Status, holds and error lie in range; the disable depth always does.
    fn ranges_sound(&self) -> bool {
        self.devices().all(|device| {
            self.status[device] <= SUSPENDING
                && self.holds[device] <= MAX_HOLDS
                && self.error[device] <= MAX_ERROR
        })
    }

    /// Document 01: the supply rule. A device awake, waking or going to sleep
    /// has no sleeping supplier and no sleeping parent that counts its children.
    fn supply_sound(&self, sets: &Sets) -> bool {
        self.devices()
            .filter(|&device| self.status[device] != SUSPENDED)
            .all(|device| sets.sleeping_above(self, device).is_empty())
    }

    /// 0 to 3 bytes are carried, unused ones zero.
    fn carried_sound(&self) -> bool {
        self.carried
            .get(usize::from(self.count)..)
            .is_some_and(all_zero)
    }

    /// The open callback fits the devices.
    fn callback_sound(&self, sets: &Sets) -> bool {
        match self.callback {
            NO_CALLBACK => self.asked == 0 && self.target == 0 && self.in_change() == 0,
            IDLE_CALLBACK => self.one_device_named() && self.idle_sound(),
            SUSPEND_CALLBACK => self.one_device_named() && self.suspend_sound(),
            RESUME_CALLBACK => {
                self.asked < self.n && self.target < self.n && self.resume_sound(sets)
            }
            _ => false,
        }
    }

    /// Idle and suspend know one device only: the target is the device asked.
    fn one_device_named(&self) -> bool {
        self.asked < self.n && self.target == self.asked
    }

    /// How many devices are in change: resuming or suspending.
    fn in_change(&self) -> usize {
        self.status[self.devices()]
            .iter()
            .filter(|&&status| matches!(status, RESUMING | SUSPENDING))
            .count()
    }

    /// Only the device asked is in change, and this is its status.
    fn only_asked_is(&self, status: u8) -> bool {
        self.status[usize::from(self.asked)] == status && self.in_change() == 1
    }

    fn idle_sound(&self) -> bool {
        let asked = usize::from(self.asked);
        self.in_change() == 0 && self.status[asked] == ACTIVE && self.suspend_test(asked).is_none()
    }

    fn suspend_sound(&self) -> bool {
        self.only_asked_is(SUSPENDING) && self.suspend_test(usize::from(self.asked)).is_none()
    }

    /// The device asked is the lowest of the target's wake set, and no member
    /// has an error or a disable depth above 0.
    fn resume_sound(&self, sets: &Sets) -> bool {
        let members = sets.wake_set(self, usize::from(self.target));
        self.only_asked_is(RESUMING)
            && members.lowest() == Some(usize::from(self.asked))
            && !members.devices().any(|member| self.unfit(member))
    }
}
