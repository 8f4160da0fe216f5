//! Records and their replies.

use crate::bench::*;
use crate::wake::Sets;

/// Reply kind 0: finished with a code.
pub const FINISHED: u8 = 0;
/// Reply kind 4: refused.
pub const REFUSED: u8 = 4;
/// Record kind 13: a callback's result.
const RESULT: u8 = 13;

/// Document 01: the least and greatest value allowed, by record kind.
/// Kind 0 doesn't exist; its row is never looked at.
const BOUNDS: [(i16, i16); 14] = {
    let mut bounds = [(0, 0); 14];
    bounds[12] = (0, 1);
    bounds[13] = (-4_095, 0);
    bounds
};

/// Document 01: a finished reply.
fn finished(device: usize, code: i16) -> [u8; 4] {
    let [low, high] = code.to_le_bytes();
    [FINISHED, device as u8, low, high]
}

/// One more or one less.
fn step(count: &mut u16, up: bool) {
    *count = if up { *count + 1 } else { *count - 1 };
}

impl Bench {
    /// Document 01: one record and its one reply. The bench must be sound.
    pub fn record(&mut self, record: [u8; 4]) -> [u8; 4] {
        let sets = Sets::of(self);
        Keeper::new(self, sets).record(record)
    }

    /// Document 01: a request by itself. 21 for a bench that isn't sound, which stays as it is.
    pub fn request(&mut self, record: [u8; 4]) -> Result<[u8; 4], u8> {
        if !self.sound() {
            return Err(21);
        }
        Ok(self.record(record))
    }

    /// Document 01: the suspend test. The code of the first fault, if any.
    pub(crate) fn suspend_test(&self, device: usize) -> Option<i16> {
        if self.error[device] != 0 {
            Some(-EINVAL)
        } else if self.depth[device] > 0 {
            Some(-EACCES)
        } else if self.usage(device) > 0 {
            Some(-EAGAIN)
        } else if self.children[device] > 0 && self.ignore[device] == 0 {
            Some(-EBUSY)
        } else {
            None
        }
    }

    /// Has the device an error, or is it disabled?
    pub(crate) fn unfit(&self, device: usize) -> bool {
        self.error[device] != 0 || self.depth[device] > 0
    }
}

/// A sound bench that takes records, and the sets of its devices.
pub(crate) struct Keeper<'a> {
    bench: &'a mut Bench,
    sets: Sets,
}

impl<'a> Keeper<'a> {
    /// The sets are the bench's own.
    pub fn new(bench: &'a mut Bench, sets: Sets) -> Keeper<'a> {
        Keeper { bench, sets }
    }

    /// Records and their replies, in order.
    pub fn records(&mut self, records: &[[u8; 4]], replies: &mut [[u8; 4]]) {
        for (record, reply) in records.iter().zip(replies) {
            *reply = self.record(*record);
        }
    }

    /// Document 01: one record and its one reply.
    pub fn record(&mut self, record: [u8; 4]) -> [u8; 4] {
        let [kind, part, low, high] = record;
        let value = i16::from_le_bytes([low, high]);
        if let Some(number) = self.refusal(kind, part, value) {
            return [REFUSED, part, number, 0];
        }
        let device = usize::from(part);
        if kind != RESULT && self.bench.callback != NO_CALLBACK {
            return finished(device, -EINPROGRESS);
        }
        self.request(kind, device, value)
    }

    /// Document 01: refusals 11 to 15, in numeric order.
    fn refusal(&self, kind: u8, part: u8, value: i16) -> Option<u8> {
        if !(1..=RESULT).contains(&kind) {
            return Some(11);
        }
        if part >= self.bench.n {
            return Some(12);
        }
        let (least, greatest) = BOUNDS[usize::from(kind)];
        if value < least || value > greatest {
            return Some(13);
        }
        if kind == RESULT && self.bench.callback == NO_CALLBACK {
            return Some(14);
        }
        (kind == RESULT && part != self.bench.asked).then_some(15)
    }

    /// A well-formed record whose turn has come. In line it costs the feeding
    /// loop a twentieth less.
    #[inline(always)]
    fn request(&mut self, kind: u8, device: usize, value: i16) -> [u8; 4] {
        match kind {
            1 => self.enable(device),
            2 => self.disable(device),
            3 => self.get(device),
            4 => self.get_and_wake(device),
            5 => self.put(device),
            6 => self.put_and_idle(device),
            7 => self.idle(device),
            8 => self.suspend(device),
            9 => self.wake(device),
            10 => self.set_active(device),
            11 => self.set_suspended(device),
            12 => self.ignore_children(device, value),
            _ => self.result(value),
        }
    }

    /// Changes a status; a change of powered status moves the parent's child
    /// count and the suppliers' link counts.
    fn set_status(&mut self, device: usize, status: u8) {
        let bench = &mut *self.bench;
        let before = bench.powered(device);
        bench.status[device] = status;
        let up = bench.powered(device);
        if before == up {
            return;
        }
        if up {
            self.sets.sleeping.remove(device);
        } else {
            self.sets.sleeping.insert(device);
        }
        if let Some(parent) = bench.parent_of(device) {
            step(&mut bench.children[parent], up);
        }
        for supplier in self.sets.suppliers[device].devices() {
            step(&mut bench.linked[supplier], up);
        }
    }

    /// Opens a callback and asks the host to run it.
    fn ask(&mut self, callback: u8, asked: usize, target: usize) -> [u8; 4] {
        self.bench.callback = callback;
        self.bench.asked = asked as u8;
        self.bench.target = target as u8;
        [callback, asked as u8, 0, 0]
    }

    /// Closes the open callback.
    fn close(&mut self) {
        self.bench.callback = NO_CALLBACK;
        self.bench.asked = 0;
        self.bench.target = 0;
    }

    /// Kind 1, enable.
    fn enable(&mut self, device: usize) -> [u8; 4] {
        match self.bench.depth[device].checked_sub(1) {
            Some(depth) => {
                self.bench.depth[device] = depth;
                finished(device, 0)
            }
            None => finished(device, -EOVERFLOW),
        }
    }

    /// Kind 2, disable.
    fn disable(&mut self, device: usize) -> [u8; 4] {
        match self.bench.depth[device].checked_add(1) {
            Some(depth) => {
                self.bench.depth[device] = depth;
                finished(device, 0)
            }
            None => finished(device, -EOVERFLOW),
        }
    }

    /// One user hold more, if there is room.
    fn raise_holds(&mut self, device: usize) -> bool {
        let holds = &mut self.bench.holds[device];
        let room = *holds < MAX_HOLDS;
        *holds += u16::from(room);
        room
    }

    /// One user hold less, if there is one.
    fn lower_holds(&mut self, device: usize) -> bool {
        let holds = &mut self.bench.holds[device];
        let held = *holds > 0;
        *holds -= u16::from(held);
        held
    }

    /// Kind 3, get.
    fn get(&mut self, device: usize) -> [u8; 4] {
        let code = if self.raise_holds(device) {
            0
        } else {
            -EOVERFLOW
        };
        finished(device, code)
    }

    /// Kind 4, get and wake. The hold stays whatever follows.
    fn get_and_wake(&mut self, device: usize) -> [u8; 4] {
        if self.raise_holds(device) {
            self.wake(device)
        } else {
            finished(device, -EOVERFLOW)
        }
    }

    /// Kind 5, put.
    fn put(&mut self, device: usize) -> [u8; 4] {
        let code = if self.lower_holds(device) {
            0
        } else {
            -EOVERFLOW
        };
        finished(device, code)
    }

    /// Kind 6, put and idle. A device that is still in use is left alone,
    /// whatever else is wrong with it.
    fn put_and_idle(&mut self, device: usize) -> [u8; 4] {
        if !self.lower_holds(device) {
            finished(device, -EOVERFLOW)
        } else if self.bench.usage(device) > 0 {
            finished(device, 0)
        } else {
            self.idle(device)
        }
    }

    /// Kind 7, idle.
    fn idle(&mut self, device: usize) -> [u8; 4] {
        if let Some(code) = self.bench.suspend_test(device) {
            return finished(device, code);
        }
        if self.bench.status[device] != ACTIVE {
            return finished(device, -EAGAIN);
        }
        self.ask(IDLE_CALLBACK, device, device)
    }

    /// Kind 8, suspend.
    fn suspend(&mut self, device: usize) -> [u8; 4] {
        if let Some(code) = self.bench.suspend_test(device) {
            return finished(device, code);
        }
        if self.bench.status[device] == SUSPENDED {
            return finished(device, 1);
        }
        self.start_suspend(device)
    }

    /// The device turns suspending and its suspend callback is asked for.
    fn start_suspend(&mut self, device: usize) -> [u8; 4] {
        self.set_status(device, SUSPENDING);
        self.ask(SUSPEND_CALLBACK, device, device)
    }

    /// Kind 9, wake.
    fn wake(&mut self, device: usize) -> [u8; 4] {
        if self.bench.error[device] != 0 {
            return finished(device, -EINVAL);
        }
        if self.bench.depth[device] > 0 {
            return finished(device, -EACCES);
        }
        if self.bench.status[device] == ACTIVE {
            return finished(device, 1);
        }
        let members = self.sets.wake_set(self.bench, device);
        if members.devices().any(|member| self.bench.unfit(member)) {
            return finished(device, -EBUSY);
        }
        self.wake_next(members.lowest(), device)
    }

    /// A member of the target's wake set turns resuming and is asked; with
    /// none left the wake is finished.
    fn wake_next(&mut self, member: Option<usize>, target: usize) -> [u8; 4] {
        match member {
            Some(member) => {
                self.set_status(member, RESUMING);
                self.ask(RESUME_CALLBACK, member, target)
            }
            None => {
                self.close();
                finished(target, 0)
            }
        }
    }

    /// Kinds 10 and 11 need a disabled device or one with an error.
    fn status_locked(&self, device: usize) -> bool {
        !self.bench.unfit(device)
    }

    /// Kind 10, set active.
    fn set_active(&mut self, device: usize) -> [u8; 4] {
        if self.status_locked(device) {
            return finished(device, -EAGAIN);
        }
        let not_active = |above| self.bench.status[above] != ACTIVE;
        if self.bench.counting_parent(device).is_some_and(not_active)
            || self.sets.suppliers[device].devices().any(not_active)
        {
            return finished(device, -EBUSY);
        }
        self.force(device, ACTIVE)
    }

    /// Kind 11, set suspended.
    fn set_suspended(&mut self, device: usize) -> [u8; 4] {
        if self.status_locked(device) {
            return finished(device, -EAGAIN);
        }
        let counted_children = self.bench.children[device] > 0 && self.bench.ignore[device] == 0;
        if counted_children || self.bench.linked[device] > 0 {
            return finished(device, -EBUSY);
        }
        self.force(device, SUSPENDED)
    }

    /// The status is set without a callback, and the error is cleared.
    fn force(&mut self, device: usize, status: u8) -> [u8; 4] {
        self.set_status(device, status);
        self.bench.error[device] = 0;
        finished(device, 0)
    }

    /// Kind 12, ignore children.
    fn ignore_children(&mut self, device: usize, value: i16) -> [u8; 4] {
        let bench = &mut *self.bench;
        if value == 0 && bench.status[device] != ACTIVE && bench.children[device] > 0 {
            return finished(device, -EBUSY);
        }
        bench.ignore[device] = u8::from(value != 0);
        finished(device, 0)
    }

    /// Kind 13, result, for the device asked.
    fn result(&mut self, value: i16) -> [u8; 4] {
        match self.bench.callback {
            IDLE_CALLBACK => self.idle_result(value),
            SUSPEND_CALLBACK => self.suspend_result(value),
            _ => self.resume_result(value),
        }
    }

    /// The idle callback's result: 0 goes on to suspend.
    fn idle_result(&mut self, value: i16) -> [u8; 4] {
        let device = usize::from(self.bench.asked);
        if value == 0 {
            return self.start_suspend(device);
        }
        self.close();
        finished(device, value)
    }

    /// The suspend callback's result. -11 and -16 are no lasting errors.
    fn suspend_result(&mut self, value: i16) -> [u8; 4] {
        let device = usize::from(self.bench.asked);
        let status = if value == 0 { SUSPENDED } else { ACTIVE };
        self.set_status(device, status);
        if value != -EAGAIN && value != -EBUSY {
            self.bench.error[device] = value.unsigned_abs();
        }
        self.close();
        finished(device, value)
    }

    /// The resume callback's result: on to the next member, or an error.
    fn resume_result(&mut self, value: i16) -> [u8; 4] {
        let asked = usize::from(self.bench.asked);
        let target = usize::from(self.bench.target);
        if value == 0 {
            self.set_status(asked, ACTIVE);
            let members = self.sets.wake_set(self.bench, target);
            return self.wake_next(members.lowest(), target);
        }
        self.set_status(asked, SUSPENDED);
        self.bench.error[asked] = value.unsigned_abs();
        self.close();
        finished(target, if asked == target { value } else { -EBUSY })
    }
}
