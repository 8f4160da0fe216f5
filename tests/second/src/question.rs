//! Document 01: public questions. Each answers 21 for a bench that isn't
//! sound, then 24 for a device not below n.

use crate::bench::*;

impl Bench {
    /// The device's row, or 21 or 24.
    fn row(&self, device: u8) -> Result<usize, u8> {
        if !self.sound() {
            return Err(21);
        }
        if device >= self.n {
            return Err(24);
        }
        Ok(usize::from(device))
    }

    /// Document 01: a part's status.
    pub fn status_of(&self, device: u8) -> Result<u8, u8> {
        Ok(self.status[self.row(device)?])
    }

    /// Document 01: user holds.
    pub fn user_holds(&self, device: u8) -> Result<u16, u8> {
        Ok(self.holds[self.row(device)?])
    }

    /// Document 01: use count, as a question gives it.
    pub fn usage_count(&self, device: u8) -> Result<u32, u8> {
        Ok(self.usage(self.row(device)?))
    }

    /// Document 01: child count.
    pub fn child_count(&self, device: u8) -> Result<u16, u8> {
        Ok(self.children[self.row(device)?])
    }

    /// Document 01: wake set. Is the second device a member of the first's?
    pub fn wakes_with(&self, device: u8, second: u8) -> Result<bool, u8> {
        let row = self.row(device)?;
        Ok(self.wake_set(row).contains(self.row(second)?))
    }

    /// Document 01: how many parents stand above a part.
    pub fn parents_above(&self, device: u8) -> Result<u32, u8> {
        Ok(self.parents(self.row(device)?))
    }
}
