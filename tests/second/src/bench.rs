//! The bench: what is known of every device and link, and the open callback.

/// Rows for devices. Only the first n are used.
pub const DEVICE_ROWS: usize = 256;
/// Rows for links. Only the first m are used.
pub const LINK_ROWS: usize = 128;

/// The greatest part count n.
pub const MAX_DEVICES: u8 = 64;
/// The greatest link count m.
pub const MAX_LINKS: u8 = 128;
/// A parent of 255 stands for none.
pub const NO_PARENT: u8 = 255;
/// Part flags, bit 0: ignores children.
pub const IGNORES_CHILDREN: u8 = 1;
/// Link flags, bit 0: runtime.
pub const RUNTIME: u8 = 1;
/// Link flags, bit 1: stateless. It has no effect.
pub const STATELESS: u8 = 2;
/// The most user holds.
pub const MAX_HOLDS: u16 = 32_767;
/// The greatest magnitude of a runtime error.
pub const MAX_ERROR: u16 = 4_095;

/// Status: suspended.
pub const SUSPENDED: u8 = 0;
/// Status: resuming ("waking").
pub const RESUMING: u8 = 1;
/// Status: active ("awake").
pub const ACTIVE: u8 = 2;
/// Status: suspending ("going to sleep").
pub const SUSPENDING: u8 = 3;

/// Open callback: none.
pub const NO_CALLBACK: u8 = 0;
/// Open callback: suspend.
pub const SUSPEND_CALLBACK: u8 = 1;
/// Open callback: resume.
pub const RESUME_CALLBACK: u8 = 2;
/// Open callback: idle.
pub const IDLE_CALLBACK: u8 = 3;

/// Error codes, as Linux numbers them.
pub const EAGAIN: i16 = 11;
pub const EACCES: i16 = 13;
pub const EBUSY: i16 = 16;
pub const EINVAL: i16 = 22;
pub const EOVERFLOW: i16 = 75;
pub const EINPROGRESS: i16 = 115;

/// Document 01: bench. Unused rows are zero, also their parents.
#[derive(Clone, Debug, PartialEq, Eq)]
pub struct Bench {
    /// Document 01: part count n.
    pub n: u8,
    /// Document 01: link count m.
    pub m: u8,
    /// Document 01: parent, 255 for none.
    pub parent: [u8; DEVICE_ROWS],
    /// Document 01: ignores children, 0 or 1.
    pub ignore: [u8; DEVICE_ROWS],
    /// Document 01: status.
    pub status: [u8; DEVICE_ROWS],
    /// Document 01: user holds.
    pub holds: [u16; DEVICE_ROWS],
    /// Document 01: disable depth.
    pub depth: [u8; DEVICE_ROWS],
    /// Document 01: error, as its magnitude; 0 for none.
    pub error: [u16; DEVICE_ROWS],
    /// Document 01: child count, the powered children, ignored or not.
    pub children: [u16; DEVICE_ROWS],
    /// Runtime links to the device from a powered consumer.
    pub linked: [u16; DEVICE_ROWS],
    /// Document 01: consumer of a link.
    pub consumer: [u8; LINK_ROWS],
    /// Document 01: supplier of a link.
    pub supplier: [u8; LINK_ROWS],
    /// Link flags: bit 0 runtime, bit 1 stateless.
    pub flags: [u8; LINK_ROWS],
    /// Document 01: open callback, its kind.
    pub callback: u8,
    /// Document 01: the part asked; 0 with none open.
    pub asked: u8,
    /// Document 01: target; the device asked for idle and suspend, 0 with none.
    pub target: u8,
    /// Document 01: carried bytes, in order, unused ones zero.
    pub carried: [u8; 3],
    /// How many bytes are carried.
    pub count: u8,
}

impl Bench {
    /// Document 01: empty bench. n is 0 and all else is zero.
    pub fn empty() -> Bench {
        Bench {
            n: 0,
            m: 0,
            parent: [0; DEVICE_ROWS],
            ignore: [0; DEVICE_ROWS],
            status: [SUSPENDED; DEVICE_ROWS],
            holds: [0; DEVICE_ROWS],
            depth: [0; DEVICE_ROWS],
            error: [0; DEVICE_ROWS],
            children: [0; DEVICE_ROWS],
            linked: [0; DEVICE_ROWS],
            consumer: [0; LINK_ROWS],
            supplier: [0; LINK_ROWS],
            flags: [0; LINK_ROWS],
            callback: NO_CALLBACK,
            asked: 0,
            target: 0,
            carried: [0; 3],
            count: 0,
        }
    }

    /// Document 01: powered. Active or suspending.
    pub fn powered(&self, device: usize) -> bool {
        matches!(self.status[device], ACTIVE | SUSPENDING)
    }

    /// Document 01: sleeping. Suspended or resuming.
    pub fn sleeping(&self, device: usize) -> bool {
        matches!(self.status[device], SUSPENDED | RESUMING)
    }

    /// Document 01: use count. User holds plus links from powered consumers.
    pub fn usage(&self, device: usize) -> u32 {
        u32::from(self.holds[device]) + u32::from(self.linked[device])
    }

    /// The parent, if there is one.
    pub fn parent_of(&self, device: usize) -> Option<usize> {
        match self.parent[device] {
            NO_PARENT => None,
            parent => Some(usize::from(parent)),
        }
    }

    /// Document 01: a parent that counts its children, one that doesn't
    /// ignore them.
    pub fn counting_parent(&self, device: usize) -> Option<usize> {
        self.parent_of(device)
            .filter(|&parent| self.ignore[parent] == 0)
    }

    /// The devices in use.
    pub fn devices(&self) -> std::ops::Range<usize> {
        0..usize::from(self.n)
    }

    /// The rows of the links in use.
    pub fn link_rows(&self) -> std::ops::Range<usize> {
        0..usize::from(self.m).min(LINK_ROWS)
    }

    /// The rows of the runtime links.
    pub fn runtime_links(&self) -> impl Iterator<Item = usize> + '_ {
        self.link_rows()
            .filter(|&row| self.flags[row] & RUNTIME != 0)
    }

    /// The child counts and the link counts, counted anew.
    pub fn recount(&self) -> ([u16; DEVICE_ROWS], [u16; DEVICE_ROWS]) {
        let mut children = [0; DEVICE_ROWS];
        for child in self.devices().filter(|&device| self.powered(device)) {
            if let Some(parent) = self.parent_of(child) {
                children[parent] += 1;
            }
        }
        let mut linked = [0; DEVICE_ROWS];
        for row in self.runtime_links() {
            if self.powered(self.consumer[row].into()) {
                linked[usize::from(self.supplier[row])] += 1;
            }
        }
        (children, linked)
    }
}
