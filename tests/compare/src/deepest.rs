//! The deepest wakes and the widest, on the stack that the keeper may take.

use crate::benches;
use crate::feed;
use crate::keeper::Memory;
use second::Bench;
use std::thread::Builder;

/// The stack that the keeper may take.
const STACK: usize = 256 << 10;
/// The last device; its wake set has all of them.
const LAST: u8 = 63;

/// Finds the wake set of the last device of each table and wakes it, on a small
/// stack; says what goes wrong.
pub fn compare() -> Result<(), String> {
    let cases = [
        ("the deepest chain of parents", parents()),
        ("the deepest chain of links", links()),
        ("the widest fan of links", fan()),
    ];
    for (name, table) in cases {
        on_a_small_stack(&table).map_err(|what| format!("{name}: {what}"))?;
    }
    Ok(())
}

/// 64 devices in one chain of parents, with 128 runtime links down the chain.
pub fn parents() -> Vec<u8> {
    let mut table = b"TWB\x01\x00\x40\x80\xff\x00".to_vec();
    table.extend((1..=LAST).flat_map(|p| [p - 1, 0]));
    let steps = |p: u8| {
        (1..=if p < 6 { 3 } else { 2 })
            .rev()
            .filter(move |&step| step <= p)
    };
    table.extend((0..=LAST).flat_map(|p| steps(p).flat_map(move |step| [p, p - step, 1])));
    table
}

/// 64 devices without parents, each supplied by the one before it.
fn links() -> Vec<u8> {
    let mut table = b"TWB\x01\x00\x40\x3f".to_vec();
    table.extend([255, 0].repeat(64));
    table.extend((1..=LAST).flat_map(|p| [p, p - 1, 1]));
    table
}

/// 64 devices without parents: the last two are each supplied by all before it that links are left for.
pub fn fan() -> Vec<u8> {
    let mut table = b"TWB\x01\x00\x40\x7d".to_vec();
    table.extend([255, 0].repeat(64));
    table.extend((LAST - 1..=LAST).flat_map(|c| (0..c).flat_map(move |s| [c, s, 1])));
    table
}

/// One table, on a thread of its own.
fn on_a_small_stack(table: &[u8]) -> Result<(), String> {
    let bench = second::load(table).map_err(|refusal| format!("refused {}", refusal.number))?;
    let woken = Builder::new()
        .stack_size(STACK)
        .spawn(move || wake(bench))
        .map_err(|error| error.to_string())?;
    woken.join().map_err(|_| "it panicked".to_string())?
}

/// The wake set, then the wake itself in one piece of log, as the second has them.
fn wake(mut bench: Bench) -> Result<(), String> {
    let members = benches::same(&bench, LAST)?;
    if members != 64 {
        return Err(format!("{members} members, not 64"));
    }
    let enabled = (0..=LAST).flat_map(|p| [1, p, 0, 0]);
    let resumed = (0..=LAST).flat_map(|p| [13, p, 0, 0]);
    let log: Vec<u8> = enabled.chain([9, LAST, 0, 0]).chain(resumed).collect();
    let mut keeper = Memory::from(&bench);
    let replies = feed::same(&mut keeper, &mut bench, &log, &vec![0; log.len()])?;
    match replies {
        Ok(replies) if replies.ends_with(&[0, LAST, 0, 0]) => Ok(()),
        other => Err(format!("the wake is not finished: {other:?}")),
    }
}
