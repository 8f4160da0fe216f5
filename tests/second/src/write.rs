//! Writing a part table.

use crate::bench::*;
use crate::table::{device_entry_good, link_entry_good, Refusal};
use std::collections::HashSet;

/// Document 02, request One: the one valid table of these devices, two bytes
/// each, and these links, three bytes each and in any order. It stands at the
/// front of the buffer, the bytes past it stay, and the answer is its length. A
/// refusal writes nothing.
pub fn write(devices: &[u8], links: &[u8], buffer: &mut [u8]) -> Result<usize, Refusal> {
    let table = table_of(devices, links)?;
    let front = buffer.get_mut(..table.len()).ok_or(Refusal {
        number: 8,
        index: 0,
    })?;
    front.copy_from_slice(&table);
    Ok(table.len())
}

/// The table of two lists, whatever the buffer: refusals 4, then 6, then 7. An
/// incomplete last entry counts as one, and is faulty.
fn table_of(devices: &[u8], links: &[u8]) -> Result<Vec<u8>, Refusal> {
    let devices: Vec<&[u8]> = devices.chunks(2).collect();
    let mut links: Vec<&[u8]> = links.chunks(3).collect();
    let (n, m) = counts(devices.len(), links.len()).ok_or(Refusal {
        number: 4,
        index: 0,
    })?;
    first_fault(6, faulty_device(&devices))?;
    first_fault(7, faulty_link(n, &links))?;
    links.sort_by_key(|link| (link[0], link[1]));
    let header = [b'T', b'W', b'B', 1, 0, n, m];
    Ok([&header[..], &devices.concat(), &links.concat()].concat())
}

/// Document 01: n and m, where they are within their limits.
fn counts(devices: usize, links: usize) -> Option<(u8, u8)> {
    let n = u8::try_from(devices)
        .ok()
        .filter(|n| (1..=MAX_DEVICES).contains(n))?;
    let m = u8::try_from(links).ok().filter(|m| *m <= MAX_LINKS)?;
    Some((n, m))
}

/// A refusal with the index of the first faulty entry, if there is one.
fn first_fault(number: u8, faulty: Option<usize>) -> Result<(), Refusal> {
    match faulty {
        Some(index) => Err(Refusal {
            number,
            index: index as u16,
        }),
        None => Ok(()),
    }
}

/// The first faulty device.
fn faulty_device(devices: &[&[u8]]) -> Option<usize> {
    let mut entries = (0u8..).zip(devices);
    entries.position(|(device, entry)| match **entry {
        [parent, flags] => !device_entry_good(device, parent, flags),
        _ => true,
    })
}

/// The first link that is faulty by itself, or has the pair of an earlier one,
/// whatever the flags.
fn faulty_link(n: u8, links: &[&[u8]]) -> Option<usize> {
    let mut pairs = HashSet::new();
    links.iter().position(|entry| match **entry {
        [consumer, supplier, flags] => {
            let pair = (consumer, supplier);
            !link_entry_good(n, pair, flags) || !pairs.insert(pair)
        }
        _ => true,
    })
}
