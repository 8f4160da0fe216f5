//! Random benches: what the keeper's algorithms and the second implementation say of them.

use crate::deepest;
use crate::keeper::{Marks, Memory};
use crate::layout::{Place, BYTES, WORDS};
use second::generate::damage::{changed, damaged};
use second::generate::hosts::{any_host, Session};
use second::generate::random::Random;
use second::generate::tables;
use second::generate::tally::Tally;
use second::Bench;

/// Compares so many random benches: how many devices were asked about, or the first difference.
pub fn compare(seed: u64, count: u64) -> Result<String, String> {
    deepest::compare()?;
    let mut random = Random::new(seed);
    let (mut devices, mut members, mut sound) = (0, 0, [0, 0]);
    for number in 0..count {
        let bench = reached(&mut random);
        for verdict in verdicts(&mut random, &bench)
            .map_err(|what| format!("seed {seed}, bench {number}: {what}"))?
        {
            sound[usize::from(verdict)] += 1;
        }
        for device in 0..bench.n {
            members += same(&bench, device)
                .map_err(|what| format!("seed {seed}, bench {number}, device {device}: {what}"))?;
            devices += 1;
        }
    }
    Ok(format!(
        "benches: {count} compared, {devices} devices, {members} members of wake sets, sound {}, not sound {}",
        sound[1], sound[0]
    ))
}

/// A random table that is good.
pub fn good_table(random: &mut Random) -> Vec<u8> {
    loop {
        let table = tables::of_any_size(random);
        if second::load(&table).is_ok() {
            return table;
        }
    }
}

/// The bench of a random table.
pub fn loaded(random: &mut Random) -> Bench {
    second::load(&good_table(random)).expect("the table is good")
}

/// A bench that a random log has led to.
pub fn reached(random: &mut Random) -> Bench {
    let bench = loaded(random);
    let mut tally = Tally::default();
    let mut session = Session::new(bench, &mut tally);
    if random.percent(80) {
        session.enable_all(random);
    }
    let host = any_host(random);
    let records = random.from_to(0, 120);
    session.play(random, host, records);
    session.bench
}

/// The verdicts on a bench, on changed ones that stay sound, on ones with a field or two damaged,
/// and on ones with any cell damaged.
fn verdicts(random: &mut Random, bench: &Bench) -> Result<Vec<bool>, String> {
    let mut benches = vec![bench.clone(), changed(random, bench)];
    benches.extend((0..8).map(|_| damaged(random, bench)));
    let mut memories: Vec<(Memory, bool)> = benches
        .iter()
        .map(|bench| (Memory::from(bench), bench.sound()))
        .collect();
    for _ in 0..8 {
        let memory = damaged_cell(random, &Memory::from(bench));
        let right = memory.bench().is_some_and(|bench| bench.sound());
        memories.push((memory, right));
    }
    let mut verdicts = Vec::new();
    for (number, (memory, right)) in memories.into_iter().enumerate() {
        if memory.sound() != right {
            return Err(format!(
                "variant {number} is sound: {}, not {right}",
                !right
            ));
        }
        verdicts.push(right);
    }
    Ok(verdicts)
}

/// A memory with one cell changed in any way: by a little, in one bit, or to any value.
pub fn damaged_cell(random: &mut Random, memory: &Memory) -> Memory {
    let place = Place::numbered(random.below((BYTES + WORDS) as u64) as usize);
    let old = memory.at(place);
    let any = random.below(1 << 32) as u32;
    let value = match random.below(6) {
        0 => old.wrapping_add(1),
        1 => old.wrapping_sub(1),
        2 => old ^ (1 << (any % 8)),
        3 => old ^ (1 << (any % 32)),
        4 => old.wrapping_add(random.one_of(&[256, 65_536, 1 << 24])),
        _ => any,
    };
    let mut damaged = memory.clone();
    damaged.put(place, value);
    damaged
}

/// How many members the wake set of a device has, or how the two differ.
pub fn same(bench: &Bench, device: u8) -> Result<u64, String> {
    let memory = Memory::from(bench);
    let right = bench.wake_set(device.into());
    let expected: Vec<usize> = right.devices().collect();
    let members = listed(&memory.wake_set(device));
    if members != expected {
        return Err(format!("wake set {members:?}, not {expected:?}"));
    }
    let recursion = listed(&memory.wake_recursion(device));
    if recursion != expected {
        return Err(format!(
            "wake set by recursion {recursion:?}, not {expected:?}"
        ));
    }
    let lowest = memory.lowest(device);
    let expected = right.lowest().unwrap_or(bench.n.into());
    if usize::from(lowest) != expected {
        return Err(format!("lowest {lowest}, not {expected}"));
    }
    let above = memory.parents_above(device);
    let expected = bench.parents(device.into());
    if u32::from(above) != expected {
        return Err(format!("{above} parents above, not {expected}"));
    }
    for status in 0..4 {
        same_counts(bench, &memory, device, status)?;
    }
    Ok(members.len() as u64)
}

/// The counts after a change of status are the recounts, and nothing else changes.
fn same_counts(bench: &Bench, memory: &Memory, device: u8, status: u8) -> Result<(), String> {
    let mut turned = memory.clone();
    turned.set_status(device, status);
    let mut right = bench.clone();
    right.status[usize::from(device)] = status;
    (right.children, right.linked) = right.recount();
    let right = Memory::from(&right);
    if turned != right {
        let what = turned.difference(&right);
        return Err(format!("status {status}: {what}"));
    }
    Ok(())
}

/// The marked devices.
fn listed(marks: &Marks) -> Vec<usize> {
    (0..marks.len()).filter(|&device| marks[device]).collect()
}
