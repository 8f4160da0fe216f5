//! Wake sets of memories that are not sound. Their contract says there only which marks cannot
//! stand; what is marked is compared with a plain search over the cells.

use crate::benches::{damaged_cell, reached};
use crate::keeper::Memory;
use second::generate::random::Random;
use second::{DEVICE_ROWS, LINK_ROWS};

/// Fields of the memory, as `tests_cell` numbers them.
const PARENT: u8 = 0;
const IGNORE: u8 = 1;
const STATUS: u8 = 2;
const CONSUMER: u8 = 5;
const SUPPLIER: u8 = 6;
const FLAGS: u8 = 7;
const NUMBERS: u8 = 11;

/// Compares the wake sets of so many damaged memories: how many members they had, or the first
/// difference.
pub fn compare(seed: u64, count: u64) -> Result<String, String> {
    let mut random = Random::new(seed);
    let (mut members, mut unsound) = (0, 0);
    for number in 0..count {
        let mut memory = Memory::from(&reached(&mut random));
        for _ in 0..random.from_to(1, 12) {
            memory = damaged_cell(&mut random, &memory);
        }
        unsound += u64::from(!memory.sound());
        for _ in 0..16 {
            let device = random.below(DEVICE_ROWS as u64) as u8;
            members += same(&memory, device)
                .map_err(|what| format!("seed {seed}, memory {number}, device {device}: {what}"))?;
        }
    }
    Ok(format!(
        "unordered: {count} memories, not sound {unsound}, {members} members of wake sets"
    ))
}

/// How many members the wake set of a device has, or how it differs from the search.
fn same(memory: &Memory, device: u8) -> Result<u64, String> {
    let marks = memory.wake_set(device);
    let right = search(memory, device);
    if marks != right {
        return Err(format!("wake set {marks:?}, not {right:?}"));
    }
    let marks = memory.wake_recursion(device);
    if marks != right {
        return Err(format!("wake set by recursion {marks:?}, not {right:?}"));
    }
    let lowest = (0..DEVICE_ROWS).find(|&q| right[q]);
    let lowest = lowest.map_or(memory.cell(NUMBERS, 0), |q| q as u32);
    if u32::from(memory.lowest(device)) != lowest {
        return Err(format!("lowest {}, not {lowest}", memory.lowest(device)));
    }
    Ok(right.iter().filter(|&&mark| mark).count() as u64)
}

/// The devices that a sleeping device leads to, by lower numbers only. The links of a device are
/// those from the number of links of lower consumers on, which are its own where links ascend.
fn search(memory: &Memory, device: u8) -> [bool; DEVICE_ROWS] {
    let sleeps = |q: u32| memory.cell(STATUS, q as u16) < 2;
    let all = memory.cell(NUMBERS, 1) as usize;
    let consumers: Vec<u32> = (0..all.min(LINK_ROWS))
        .map(|i| memory.cell(CONSUMER, i as u16))
        .collect();
    // more links than a table may have are none
    let below = |p: u32| match all > LINK_ROWS {
        true => 0,
        false => consumers.iter().filter(|&&c| c < p).count(),
    };
    let mut marks = [false; DEVICE_ROWS];
    let mut open = Vec::from_iter(sleeps(device.into()).then_some(u32::from(device)));
    while let Some(p) = open.pop() {
        if std::mem::replace(&mut marks[p as usize], true) {
            continue;
        }
        let parent = memory.cell(PARENT, p as u16);
        let mut next = Vec::new();
        if memory.cell(IGNORE, parent as u16) == 0 {
            next.push(parent);
        }
        for i in below(p)..below(p + 1) {
            if memory.cell(FLAGS, i as u16) % 2 == 1 {
                next.push(memory.cell(SUPPLIER, i as u16));
            }
        }
        open.extend(next.into_iter().filter(|&q| q < p && sleeps(q)));
    }
    marks
}
