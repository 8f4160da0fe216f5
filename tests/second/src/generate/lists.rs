//! Random lists of parts and links for the writer, good ones and bad ones.

use super::random::Random;
use super::tables::{self, Draft};
use crate::bench::*;

/// What a table is written from.
#[derive(Clone)]
pub struct Lists {
    /// Two bytes for each device.
    pub devices: Vec<u8>,
    /// Three bytes for each link, in any order.
    pub links: Vec<u8>,
}

impl Lists {
    /// The entries of a draft, in its order.
    fn of(draft: &Draft) -> Lists {
        Lists {
            devices: draft.devices.concat(),
            links: draft.links.concat(),
        }
    }

    /// The entries of a table, as far as its bytes go.
    pub fn of_table(table: &[u8]) -> Lists {
        let n = table.get(5).map_or(0, |&n| usize::from(n));
        let entries = table.get(7..).unwrap_or_default();
        let (devices, links) = entries.split_at(entries.len().min(2 * n));
        Lists {
            devices: devices.to_vec(),
            links: links.to_vec(),
        }
    }

    /// The same links in any order, those of an incomplete last entry last.
    pub fn shuffled(&self, random: &mut Random) -> Lists {
        let (mut links, rest) = (self.whole_links(), self.links.len() / 3 * 3);
        random.shuffle(&mut links);
        Lists {
            devices: self.devices.clone(),
            links: [&links.concat(), &self.links[rest..]].concat(),
        }
    }

    /// The links, without an incomplete last one.
    pub fn whole_links(&self) -> Vec<[u8; 3]> {
        let links = self.links.chunks_exact(3);
        links.map(|link| [link[0], link[1], link[2]]).collect()
    }
}

/// Lists of any length.
pub fn any(random: &mut Random) -> Lists {
    match random.below(20) {
        0 => noise(random, 200, 400),
        1 => noise(random, 9, 16),
        2 => too_many(random),
        3 => of_any_table(random),
        _ => {
            let draft = if random.percent(50) {
                tables::any_good(random)
            } else {
                tables::sized(random)
            };
            changed(random, draft)
        }
    }
}

/// Lists of at most four devices and five links.
pub fn small(random: &mut Random) -> Lists {
    let n = random.one_of(&[1, 2, 3, 4, 4]);
    let m = random.below(6) as usize;
    let mut lists = if random.percent(5) {
        noise(random, 9, 16)
    } else {
        let draft = Draft::good(random, n, m);
        changed(random, draft)
    };
    lists.devices.truncate(8);
    lists.links.truncate(15);
    lists
}

/// The entries of a draft: as they are, in another order, or with faults.
fn changed(random: &mut Random, mut draft: Draft) -> Lists {
    order(random, &mut draft.links);
    match random.below(12) {
        0..=3 => {}
        4 => tables::spoil_device(random, &mut draft),
        5 => tables::spoil_link(random, &mut draft),
        6 | 7 => repeat(random, &mut draft.links),
        8 => return incomplete(random, Lists::of(&draft)),
        9 => return damaged(random, Lists::of(&draft)),
        10 => return emptied(random, Lists::of(&draft)),
        _ => return faulty_twice(random, draft),
    }
    Lists::of(&draft)
}

/// Ascending, as a draft has them, descending, nearly in order, or in any order.
fn order(random: &mut Random, links: &mut [[u8; 3]]) {
    match random.below(6) {
        0 => {}
        1 => links.reverse(),
        2 if links.len() > 1 => {
            let row = random.below(links.len() as u64 - 1) as usize;
            links.swap(row, row + 1);
        }
        _ => random.shuffle(links),
    }
}

/// The pair of a link stands again once or twice, beside it or anywhere, with
/// the same flags or others.
fn repeat(random: &mut Random, links: &mut Vec<[u8; 3]>) {
    if links.is_empty() {
        return;
    }
    let from = random.below(links.len() as u64) as usize;
    let [consumer, supplier, flags] = links[from];
    for _ in 0..random.one_of(&[1, 1, 2]) {
        let flags = random.one_of(&[flags, flags ^ 1, flags ^ 2, 4]);
        let to = match random.below(4) {
            0 => from,
            1 => from + 1,
            2 => links.len(),
            _ => random.below(links.len() as u64 + 1) as usize,
        };
        // As many links as before, where one more would be too many.
        if links.len() >= usize::from(MAX_LINKS) && random.percent(90) {
            links[to.min(usize::from(MAX_LINKS) - 1)] = [consumer, supplier, flags];
        } else {
            links.insert(to, [consumer, supplier, flags]);
        }
    }
}

/// A list ends within an entry: bytes are cut off, or some are left over.
fn incomplete(random: &mut Random, mut lists: Lists) -> Lists {
    for _ in 0..random.one_of(&[1, 1, 2]) {
        let (list, bytes) = if random.percent(50) {
            (&mut lists.devices, 1)
        } else {
            (&mut lists.links, random.from_to(1, 2) as usize)
        };
        if random.percent(50) {
            list.truncate(list.len().saturating_sub(bytes));
        } else {
            list.extend((0..bytes).map(|_| random.one_of(&[0, 1, 2, 255])));
        }
    }
    lists
}

/// One or two bytes of a list changed.
fn damaged(random: &mut Random, mut lists: Lists) -> Lists {
    if random.percent(40) || lists.links.is_empty() {
        lists.devices = tables::damage(random, lists.devices);
    } else {
        lists.links = tables::damage(random, lists.links);
    }
    lists
}

/// A list, or both, with nothing in it.
fn emptied(random: &mut Random, mut lists: Lists) -> Lists {
    let which = random.below(4);
    if which != 0 {
        lists.links.clear();
    }
    if which != 1 {
        lists.devices.clear();
    }
    lists
}

/// Two faults, so that the first test has to be found, and its first entry.
fn faulty_twice(random: &mut Random, mut draft: Draft) -> Lists {
    for _ in 0..2 {
        match random.below(4) {
            0 => tables::spoil_device(random, &mut draft),
            1 => repeat(random, &mut draft.links),
            _ => tables::spoil_link(random, &mut draft),
        }
    }
    let lists = Lists::of(&draft);
    match random.below(5) {
        0 => incomplete(random, lists),
        1 => damaged(random, lists),
        _ => lists,
    }
}

/// As many entries as a table may have, or more, often with other faults.
fn too_many(random: &mut Random) -> Lists {
    let n = random.one_of(&[17, 40, 64, 65, 66, 128, 200]);
    let m = random.one_of(&[0, 12, 128, 129, 130, 256, 1_000]);
    let draft = Draft::good(random, n, m);
    if random.percent(50) {
        return changed(random, draft);
    }
    let mut lists = Lists::of(&draft).shuffled(random);
    // More than a byte counts.
    if random.percent(20) {
        lists
            .devices
            .resize(2 * random.one_of(&[256, 257, 320]), 255);
    }
    lists
}

/// The entries of a table, good or bad, in any order.
fn of_any_table(random: &mut Random) -> Lists {
    let table = if random.percent(50) {
        tables::any(random)
    } else {
        tables::of_any_size(random)
    };
    Lists::of_table(&table).shuffled(random)
}

/// Random bytes, fewer than so many in each list; often low ones, which are
/// good more often.
fn noise(random: &mut Random, devices: u64, links: u64) -> Lists {
    let low = random.percent(70);
    let mut bytes = |most| -> Vec<u8> {
        (0..random.below(most))
            .map(|_| match low {
                true => random.one_of(&[0, 0, 1, 1, 2, 3, 4, 255]),
                false => random.byte(),
            })
            .collect()
    };
    Lists {
        devices: bytes(devices),
        links: bytes(links),
    }
}
