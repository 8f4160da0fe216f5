//! Loading a part table.

use crate::bench::*;

/// Documents 01 and 02: what a table is turned away with, refusals 1 to 7, and
/// what the lists for one are, refusals 4 and 6 to 8.
#[derive(Clone, Copy, Debug, PartialEq, Eq)]
pub struct Refusal {
    /// 1 to 8.
    pub number: u8,
    /// The entry's index in its list; 0 for 1 to 5 and 8.
    pub index: u16,
}

/// Bytes before the entries.
const HEADER: usize = 7;

/// Document 01: the part table. Every device loaded is suspended, with disable
/// depth 1, no holds, no powered children and no error. The bench left by a
/// refusal is the empty one.
pub fn load(table: &[u8]) -> Result<Bench, Refusal> {
    if let Some(number) = header_fault(table) {
        return Err(Refusal { number, index: 0 });
    }
    let mut bench = Bench::empty();
    bench.n = table[5];
    bench.m = table[6];
    let links_at = HEADER + 2 * usize::from(bench.n);
    load_devices(&mut bench, &table[HEADER..links_at])?;
    load_links(&mut bench, &table[links_at..])?;
    Ok(bench)
}

/// The first fault of refusals 1 to 5.
fn header_fault(table: &[u8]) -> Option<u8> {
    if table.len() < HEADER {
        return Some(1);
    }
    if &table[..3] != b"TWB" {
        return Some(2);
    }
    if u16::from_le_bytes([table[3], table[4]]) != 1 {
        return Some(3);
    }
    let (n, m) = (table[5], table[6]);
    if n == 0 || n > MAX_DEVICES || m > MAX_LINKS {
        return Some(4);
    }
    let length = HEADER + 2 * usize::from(n) + 3 * usize::from(m);
    (table.len() != length).then_some(5)
}

/// Part entries: parent and flags. The first bad one is refused with 6.
fn load_devices(bench: &mut Bench, entries: &[u8]) -> Result<(), Refusal> {
    for (index, entry) in (0u8..).zip(entries.chunks_exact(2)) {
        if !device_entry_good(index, entry[0], entry[1]) {
            return Err(Refusal {
                number: 6,
                index: index.into(),
            });
        }
        let device = usize::from(index);
        bench.parent[device] = entry[0];
        bench.ignore[device] = entry[1];
        bench.depth[device] = 1;
    }
    Ok(())
}

/// Document 01: the rules of a part entry.
pub(crate) fn device_entry_good(device: u8, parent: u8, flags: u8) -> bool {
    (parent == NO_PARENT || parent < device) && flags & !IGNORES_CHILDREN == 0
}

/// Link entries: consumer, supplier, flags. The first bad one is refused with 7.
fn load_links(bench: &mut Bench, entries: &[u8]) -> Result<(), Refusal> {
    let mut before = None;
    for (index, entry) in (0u16..).zip(entries.chunks_exact(3)) {
        let pair = (entry[0], entry[1]);
        if !link_entry_good(bench.n, pair, entry[2]) || !ascends(before, pair) {
            return Err(Refusal { number: 7, index });
        }
        let row = usize::from(index);
        (bench.consumer[row], bench.supplier[row]) = pair;
        bench.flags[row] = entry[2];
        before = Some(pair);
    }
    Ok(())
}

/// Document 01: the rules of a link entry by itself.
pub(crate) fn link_entry_good(n: u8, (consumer, supplier): (u8, u8), flags: u8) -> bool {
    consumer < n && supplier < consumer && flags & !(RUNTIME | STATELESS) == 0
}

/// Links ascend strictly by consumer, then supplier.
pub(crate) fn ascends(before: Option<(u8, u8)>, pair: (u8, u8)) -> bool {
    before.is_none_or(|earlier| earlier < pair)
}
