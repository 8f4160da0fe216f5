//! Random part tables, good ones and bad ones.

use super::random::Random;
use crate::bench::*;

/// The parts of a table before it is written as bytes.
pub struct Draft {
    /// Parent and flags of each device.
    pub devices: Vec<[u8; 2]>,
    /// Consumer, supplier and flags of each link.
    pub links: Vec<[u8; 3]>,
}

impl Draft {
    /// A good table with n devices and at most m links.
    pub fn good(random: &mut Random, n: u8, m: usize) -> Draft {
        let devices = (0..n).map(|device| good_device(random, device)).collect();
        let links = good_pairs(random, n, m)
            .into_iter()
            .map(|(consumer, supplier)| [consumer, supplier, link_flags(random)])
            .collect();
        Draft { devices, links }
    }

    /// The bytes of the table.
    pub fn bytes(&self) -> Vec<u8> {
        let mut table = b"TWB\x01\x00".to_vec();
        table.push(self.devices.len() as u8);
        table.push(self.links.len() as u8);
        table.extend(self.devices.iter().flatten());
        table.extend(self.links.iter().flatten());
        table
    }
}

fn good_device(random: &mut Random, device: u8) -> [u8; 2] {
    let parent = if device == 0 || random.percent(35) {
        NO_PARENT
    } else {
        random.below(u64::from(device)) as u8
    };
    [parent, u8::from(random.percent(25))]
}

/// Mostly runtime links, some without effect.
fn link_flags(random: &mut Random) -> u8 {
    random.one_of(&[0, 1, 1, 1, 1, 2, 3, 3])
}

/// Ascending pairs of consumer and supplier, picked from all there are.
fn good_pairs(random: &mut Random, n: u8, m: usize) -> Vec<(u8, u8)> {
    let mut all: Vec<(u8, u8)> = (0..n)
        .flat_map(|consumer| (0..consumer).map(move |supplier| (consumer, supplier)))
        .collect();
    while all.len() > m {
        all.swap_remove(random.below(all.len() as u64) as usize);
    }
    all.sort_unstable();
    all
}

/// A small good table for logs.
pub fn small(random: &mut Random, most: u8) -> Vec<u8> {
    let n = random.from_to(1, u64::from(most)) as u8;
    let m = random.below(9) as usize;
    Draft::good(random, n, m).bytes()
}

/// A good draft of any size: mostly small, sometimes the largest.
pub(super) fn any_good(random: &mut Random) -> Draft {
    match random.below(20) {
        0 => Draft::good(random, MAX_DEVICES, 12),
        1 if random.percent(40) => Draft::good(random, 64, 128),
        2 => Draft::good(random, 17, 128),
        _ => {
            let n = random.from_to(1, 8) as u8;
            let m = random.below(9) as usize;
            Draft::good(random, n, m)
        }
    }
}

/// A table for loading, good or bad in one of many ways.
pub fn any(random: &mut Random) -> Vec<u8> {
    match random.below(14) {
        0..=2 => any_good(random).bytes(),
        3..=5 => damaged(random),
        6 => wrong_length(random),
        7 => wrong_header(random),
        8 => wrong_size(random),
        9 => wrong_device(random),
        10 | 11 => wrong_link(random),
        12 => wrong_twice(random),
        _ => noise(random),
    }
}

/// One or two bytes changed.
fn damaged(random: &mut Random) -> Vec<u8> {
    let table = any_good(random).bytes();
    damage(random, table)
}

pub(super) fn damage(random: &mut Random, mut table: Vec<u8>) -> Vec<u8> {
    for _ in 0..random.from_to(1, 2) {
        let at = random.below(table.len() as u64) as usize;
        table[at] = match random.below(4) {
            0 => random.byte(),
            1 => table[at].wrapping_add(1),
            2 => table[at].wrapping_sub(1),
            _ => table[at] ^ (1 << random.below(8)),
        };
    }
    table
}

/// Cut anywhere, or one byte over.
fn wrong_length(random: &mut Random) -> Vec<u8> {
    let mut table = any_good(random).bytes();
    match random.below(3) {
        0 => table.truncate(random.below(8) as usize),
        1 => table.truncate(random.below(table.len() as u64) as usize),
        _ => table.push(random.one_of(&[0, 255])),
    }
    table
}

/// Mark or version changed, now and then with other faults behind it.
fn wrong_header(random: &mut Random) -> Vec<u8> {
    let mut table = any_good(random).bytes();
    let at = random.below(5) as usize;
    table[at] = random.one_of(&[0, 1, 2, b'T', b'W', b'B', b't', 255]);
    if random.percent(30) {
        table[5] = random.one_of(&[0, 65]);
    }
    table
}

/// n or m at or beyond its limits, with the right length or not.
fn wrong_size(random: &mut Random) -> Vec<u8> {
    let mut table = any_good(random).bytes();
    match random.below(5) {
        0 => table = Draft::good(random, 0, 0).bytes(),
        1 => table[5] = random.one_of(&[0, 63, 64, 65, 66, 128, 255]),
        2 => table[6] = random.one_of(&[127, 128, 129, 130, 255]),
        3 => {
            let n = random.one_of(&[64, 65]);
            table = Draft::good(random, n, 3).bytes();
        }
        _ => {
            let m = random.one_of(&[128, 129]);
            table = Draft::good(random, 18, m).bytes();
        }
    }
    table
}

/// One part entry is bad: its parent or its flags.
fn wrong_device(random: &mut Random) -> Vec<u8> {
    let mut draft = any_good(random);
    spoil_device(random, &mut draft);
    draft.bytes()
}

pub(super) fn spoil_device(random: &mut Random, draft: &mut Draft) {
    let n = draft.devices.len() as u64;
    let device = random.below(n) as usize;
    match random.below(4) {
        0 => draft.devices[device][0] = device as u8,
        1 => draft.devices[device][0] = random.one_of(&[device as u8 + 1, n as u8, 64, 250, 254]),
        2 => draft.devices[device][1] = random.one_of(&[2, 3, 4, 128, 255]),
        _ => draft.devices[device][1] ^= 1 << random.below(8),
    }
}

/// One link entry is bad, or the order of two.
fn wrong_link(random: &mut Random) -> Vec<u8> {
    let n = random.from_to(2, 8) as u8;
    let m = random.from_to(1, 9) as usize;
    let mut draft = Draft::good(random, n, m);
    spoil_link(random, &mut draft);
    draft.bytes()
}

pub(super) fn spoil_link(random: &mut Random, draft: &mut Draft) {
    let (n, m) = (draft.devices.len() as u8, draft.links.len());
    if m == 0 {
        return;
    }
    let row = random.below(m as u64) as usize;
    let [consumer, supplier, flags] = draft.links[row];
    match random.below(6) {
        0 => draft.links[row][2] = random.one_of(&[4, 5, 7, 8, 128, 255]),
        1 => draft.links[row][1] = random.one_of(&[consumer, consumer.wrapping_add(1), n, 255]),
        2 => draft.links[row][0] = random.one_of(&[n, n + 1, supplier, 255]),
        3 => draft.links.swap(row, (row + 1) % m),
        4 => draft.links.insert(row, [consumer, supplier, flags ^ 1]),
        _ => {
            let other = random.below(m as u64) as usize;
            draft.links[row] = draft.links[other];
        }
    }
}

/// Two faults, so that the first has to be found.
fn wrong_twice(random: &mut Random) -> Vec<u8> {
    let mut draft = any_good(random);
    for _ in 0..2 {
        if random.percent(50) {
            spoil_link(random, &mut draft);
        } else {
            spoil_device(random, &mut draft);
        }
    }
    let mut table = draft.bytes();
    if random.percent(20) {
        table.pop();
    }
    table
}

/// Random bytes, often behind a good header.
fn noise(random: &mut Random) -> Vec<u8> {
    let length = random.below(24) as usize;
    let mut table: Vec<u8> = (0..length).map(|_| random.byte()).collect();
    if random.percent(70) {
        let n = random.from_to(1, 3) as u8;
        let m = random.below(3) as u8;
        let mut start = b"TWB\x01\x00".to_vec();
        start.extend([n, m]);
        let rest = 2 * usize::from(n) + 3 * usize::from(m);
        start.extend((0..rest).map(|_| random.one_of(&[0, 0, 1, 1, 2, 3, 255])));
        table = start;
    }
    table
}

/// A table for loading, of any size up to the largest: good, or bad in an
/// entry, in one or two bytes, in its length or altogether.
pub fn of_any_size(random: &mut Random) -> Vec<u8> {
    let mut draft = sized(random);
    match random.below(9) {
        0..=2 => draft.bytes(),
        3 => {
            spoil_device(random, &mut draft);
            draft.bytes()
        }
        4 => {
            spoil_link(random, &mut draft);
            draft.bytes()
        }
        5 => damage(random, draft.bytes()),
        6 => cut(random, draft.bytes()),
        7 => extended(random, draft.bytes()),
        _ => random_bytes(random, draft.bytes()),
    }
}

/// A good draft of any size; the largest more often than others.
pub(super) fn sized(random: &mut Random) -> Draft {
    let n = random.from_to(1, u64::from(MAX_DEVICES) + 4) as u8;
    let m = random.below(u64::from(MAX_LINKS) + 9) as usize;
    Draft::good(random, n.min(MAX_DEVICES), m.min(MAX_LINKS.into()))
}

/// Cut anywhere before the end.
fn cut(random: &mut Random, mut table: Vec<u8>) -> Vec<u8> {
    table.truncate(random.below(table.len() as u64) as usize);
    table
}

/// Up to ten bytes over.
fn extended(random: &mut Random, mut table: Vec<u8>) -> Vec<u8> {
    for _ in 0..random.from_to(1, 10) {
        table.push(random.byte());
    }
    table
}

/// Random bytes; half of the time the header of the table stays.
fn random_bytes(random: &mut Random, mut table: Vec<u8>) -> Vec<u8> {
    let from = random.one_of(&[0, 7]);
    for byte in &mut table[from..] {
        *byte = random.byte();
    }
    table
}
