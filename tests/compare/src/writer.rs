//! Random lists of devices and links, written as tables by the keeper and by the second
//! implementation: what each answers, and every byte of the buffer.

use crate::answers::ENOUGH;
use crate::keeper::{self, Memory};
use second::generate::lists::{self, Lists};
use second::generate::random::Random;
use second::generate::tables;
use second::{Refusal, MAX_DEVICES, MAX_LINKS};
use std::collections::BTreeSet;

/// Compares so many random lists: the tally, or the first difference.
pub fn compare(seed: u64, count: u64) -> Result<String, String> {
    let mut random = Random::new(seed);
    let mut tally = Tally::default();
    for number in 0..count {
        let lists = lists::any(&mut random);
        let buffer = buffer(&mut random, &lists);
        same(&mut random, &mut tally, &lists, &buffer).map_err(|what| {
            format!(
                "seed {seed}, lists {number} differ\ndevices: {}\nlinks: {}\nroom: {}\n{what}",
                hex(&lists.devices),
                hex(&lists.links),
                buffer.len()
            )
        })?;
        table_again(&mut random, &mut tally)
            .map_err(|what| format!("seed {seed}, table {number}: {what}"))?;
    }
    tally.complete(count)?;
    Ok(tally.line(count))
}

/// The length of the table of two lists, where it is written.
fn length(lists: &Lists) -> usize {
    7 + lists.devices.len() + lists.links.len()
}

/// Random bytes: none, some of the table's length, all but one, as many, or more.
fn buffer(random: &mut Random, lists: &Lists) -> Vec<u8> {
    let length = length(lists);
    let room = match random.below(10) {
        0 => 0,
        1 => random.below(length as u64) as usize,
        2 => length - 1,
        3..=5 => length,
        6 => length + 1,
        _ => length + random.from_to(1, 700) as usize,
    };
    (0..room).map(|_| random.byte()).collect()
}

/// How many bytes stand before a buffer that is lent, and how many after it.
const GUARD: usize = 64;

/// What the keeper answers, and the buffer that it leaves. The bytes around it stay.
fn written(lists: &Lists, buffer: &[u8]) -> Result<((u32, u32), Vec<u8>), String> {
    let guard = [0xA5; GUARD];
    let mut lent = [&guard, buffer, &guard].concat();
    let end = GUARD + buffer.len();
    let answer = keeper::write(&lists.devices, &lists.links, &mut lent[GUARD..end]);
    if lent[..GUARD] != guard || lent[end..] != guard {
        return Err("bytes around the buffer have changed".to_string());
    }
    Ok((answer, lent[GUARD..end].to_vec()))
}

/// One pair of lists to both, with a buffer of these bytes.
fn same(
    random: &mut Random,
    tally: &mut Tally,
    lists: &Lists,
    buffer: &[u8],
) -> Result<(), String> {
    let mut right = buffer.to_vec();
    let answer = second::write(&lists.devices, &lists.links, &mut right);
    let expected = match answer {
        Ok(_) => (0, 0),
        Err(Refusal { number, index }) => (number.into(), index.into()),
    };
    let (answered, left) = written(lists, buffer)?;
    if answered != expected {
        return Err(format!(
            "keeper: {}\nsecond: {}",
            shown(answered),
            shown(expected)
        ));
    }
    if let Some(at) = (0..right.len()).find(|&at| left[at] != right[at]) {
        let (byte, right) = (left[at], right[at]);
        return Err(format!("byte {at} of the buffer: {byte}, not {right}"));
    }
    let length = answer.unwrap_or(0);
    if left[length..] != buffer[length..] {
        return Err("bytes past the table have changed".to_string());
    }
    tally.add(lists, answer);
    match answer {
        Ok(length) => good(random, lists, &left[..length]),
        Err(_) => Ok(()),
    }
}

/// Both load the table that was written, it has the devices and the set of links that were given,
/// and its own entries in any order are written as the same table.
fn good(random: &mut Random, lists: &Lists, table: &[u8]) -> Result<(), String> {
    if table.len() != length(lists) {
        return Err(format!("a table of {} bytes", table.len()));
    }
    taken(table)?;
    let entries = Lists::of_table(table);
    if entries.devices != lists.devices {
        return Err("the devices are not those given".to_string());
    }
    let set = |lists: &Lists| -> BTreeSet<[u8; 3]> { lists.whole_links().into_iter().collect() };
    if set(&entries) != set(lists) {
        return Err("the links are not those given".to_string());
    }
    again(&entries.shuffled(random), table)
}

/// Both loaders take a table, and leave the same bench.
fn taken(table: &[u8]) -> Result<(), String> {
    let bench = second::load(table).map_err(|refusal| format!("second loads it: {refusal:?}"))?;
    let mut memory = Memory::filled(true);
    let answer = memory.load(table);
    if answer != (0, 0) {
        return Err(format!("keeper loads it: {}", shown(answer)));
    }
    let right = Memory::from(&bench);
    if memory != right {
        return Err(memory.difference(&right));
    }
    Ok(())
}

/// Both write these lists as this table.
fn again(lists: &Lists, table: &[u8]) -> Result<(), String> {
    let blank: Vec<u8> = table.iter().map(|byte| !byte).collect();
    let (answer, left) = written(lists, &blank)?;
    let mut right = blank;
    let expected = second::write(&lists.devices, &lists.links, &mut right);
    if answer != (0, 0) || left != table {
        return Err(format!(
            "keeper writes it again as {}: {}",
            hex(&left),
            shown(answer)
        ));
    }
    if expected != Ok(table.len()) || right != table {
        return Err(format!(
            "second writes it again as {}: {expected:?}",
            hex(&right)
        ));
    }
    Ok(())
}

/// A random table: where the loader takes it, both write its entries in any order as the same table.
fn table_again(random: &mut Random, tally: &mut Tally) -> Result<(), String> {
    let table = tables::any(random);
    if second::load(&table).is_ok() {
        tally.tables += 1;
        again(&Lists::of_table(&table).shuffled(random), &table)
            .map_err(|what| format!("{}\n{what}", hex(&table)))?;
    }
    Ok(())
}

/// An answer in words.
fn shown((number, index): (u32, u32)) -> String {
    match number {
        0 if index == 0 => "written".to_string(),
        _ => format!("refused {number}, index {index}"),
    }
}

fn hex(bytes: &[u8]) -> String {
    bytes.iter().map(|byte| format!("{byte:02x}")).collect()
}

/// Request One: the refusals of the writer, in the order of its tests.
const REFUSALS: [u8; 4] = [4, 6, 7, 8];

/// How often each answer was met.
#[derive(Default)]
struct Tally {
    written: u64,
    /// Written from links that were not given in order.
    sorted: u64,
    /// Written with as many devices and links as a table may have.
    largest: u64,
    refused: [u64; REFUSALS.len()],
    /// Refused with 7 for a link that is good by itself: its pair stands before it.
    repeated: u64,
    /// Refused with 6 or 7 for an incomplete last entry.
    incomplete: u64,
    /// Tables that were loaded, and written again.
    tables: u64,
}

impl Tally {
    fn add(&mut self, lists: &Lists, answer: Result<usize, Refusal>) {
        let links = lists.whole_links();
        let Err(Refusal { number, index }) = answer else {
            let most = (2 * usize::from(MAX_DEVICES), usize::from(MAX_LINKS));
            self.written += 1;
            self.sorted += u64::from(!links.is_sorted());
            self.largest += u64::from((lists.devices.len(), links.len()) == most);
            return;
        };
        if let Some(at) = REFUSALS.iter().position(|&known| known == number) {
            self.refused[at] += 1;
        }
        let index = usize::from(index);
        match (number, links.get(index)) {
            (6, _) if lists.devices.len() < 2 * index + 2 => self.incomplete += 1,
            (7, None) => self.incomplete += 1,
            (7, Some([consumer, supplier, flags])) => {
                let n = lists.devices.len() / 2;
                let fits = usize::from(*consumer) < n && supplier < consumer && *flags < 4;
                self.repeated += u64::from(fits);
            }
            _ => {}
        }
    }

    /// Everything was met, if there were enough lists.
    fn complete(&self, lists: u64) -> Result<(), String> {
        let others = [self.written, self.sorted, self.repeated, self.incomplete];
        if lists >= ENOUGH && [self.refused, others].concat().contains(&0) {
            return Err(format!("a count is 0: {}", self.line(lists)));
        }
        Ok(())
    }

    /// The counts on one line.
    fn line(&self, lists: u64) -> String {
        let [limits, devices, links, room] = self.refused;
        format!(
            "writer: {lists} lists compared, written {} ({} sorted, {} of the largest), \
             refused 4: {limits}, 6: {devices}, 7: {links} ({} repeated pairs), 8: {room}, \
             6 or 7 incomplete: {}, tables written again: {}",
            self.written, self.sorted, self.largest, self.repeated, self.incomplete, self.tables
        )
    }
}
