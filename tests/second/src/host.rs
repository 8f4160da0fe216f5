//! Document 02, request Five: the calls of a C host. The host keeps a bench as
//! bytes, which begin with its saved form. Each call answers a refusal's number
//! negated; a refusal writes nothing.

use crate::bench::Bench;
use crate::saved::{form_of, restore, FORM};
use crate::table;

/// Loads a table into state bytes: 0, or the table's own number, or 8 where
/// there is too little room.
pub fn load(table: &[u8], state: &mut [u8]) -> i32 {
    let bench = match table::load(table) {
        Ok(bench) => bench,
        Err(refusal) => return -i32::from(refusal.number),
    };
    match state.get_mut(..FORM) {
        Some(front) => front.copy_from_slice(&form_of(&bench)),
        None => return -8,
    }
    0
}

/// Feeds a piece of log against state bytes: how many replies were written, or
/// 21, 22 or 23, tested in this order.
pub fn feed(state: &mut [u8], piece: &[u8], replies: &mut [u8]) -> i32 {
    let Some(mut bench) = bench_in(state) else {
        return -21;
    };
    match bench.feed(piece, replies) {
        Ok(count) => {
            state[..FORM].copy_from_slice(&form_of(&bench));
            count as i32
        }
        Err(number) => -i32::from(number),
    }
}

/// Asks about a part, in the wake set's question about two: the answer, or 21,
/// then 24 for an unknown question or part.
pub fn ask(state: &[u8], question: u32, part: u32, second: u32) -> i32 {
    let Some(bench) = bench_in(state) else {
        return -21;
    };
    told(&bench, question, part, second).map_or(-24, |answer| answer as i32)
}

/// The answer to a question; none where it or a part that it is about is
/// unknown.
fn told(bench: &Bench, question: u32, part: u32, second: u32) -> Option<u32> {
    let row = row_of(bench, part)?;
    Some(match question {
        0 => bench.status[row].into(),
        1 => bench.usage(row),
        2 => bench.children[row].into(),
        3 => bench.holds[row].into(),
        4 => bench
            .wake_set(row)
            .contains(row_of(bench, second)?)
            .into(),
        5 => bench.parents(row),
        _ => return None,
    })
}

/// The bench whose saved form state bytes begin with, if there is one.
fn bench_in(state: &[u8]) -> Option<Bench> {
    restore(state.get(..FORM)?).ok()
}

/// The row of a part that the bench has.
fn row_of(bench: &Bench, part: u32) -> Option<usize> {
    (part < u32::from(bench.n)).then_some(part as usize)
}
