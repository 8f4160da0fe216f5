//! How fast a feed through the C calls is beside the keeper's own feed, on one log in long and in
//! short pieces, and where the time of a short one goes.

use crate::c_calls;
use crate::keeper::Memory;
use crate::speed::{give, often, time};
use second::{Bench, FORM, MAX_PIECE};
use std::hint::black_box;

/// The sizes of pieces, and how often the log is given in each.
const SIZES: [(usize, usize); 2] = [(MAX_PIECE, 101), (4, 15)];

/// The most that a feed of the longest pieces may take, in times of the keeper's own.
const MOST: f64 = 1.3;

/// Times both: the lines to print, or how they differ.
pub fn compare(bench: &Bench, log: &[u8]) -> Result<String, String> {
    let saved = second::save(bench).map_err(|number| format!("bench: not saved, {number}"))?;
    let form: State = saved.try_into().expect("a form has its length");
    let memory = Memory::from(bench);
    let mut lines = Vec::new();
    for (size, runs) in SIZES {
        let (mut own, mut calls) = (f64::INFINITY, f64::INFINITY);
        same(&memory, &form, log, size)?;
        for _ in 0..runs {
            own = own.min(time(&memory, Memory::feed, log, size)?);
            calls = calls.min(time(&form, feed, log, size)?);
        }
        let micros = size as f64 / 4.0 / 1_000.0;
        lines.push(format!(
            "C calls, pieces of {size} bytes, best of {runs} runs: {:.3} us a piece, keeper's own feed {:.3}, ratio {:.2}",
            calls * micros,
            own * micros,
            calls / own
        ));
        if size == MAX_PIECE && calls > MOST * own {
            lines.push(format!("the ratio at {MAX_PIECE} bytes is above {MOST}"));
        }
    }
    lines.push(parts(&memory, &form));
    Ok(lines.join("\n"))
}

/// The bytes that a C host keeps.
type State = [u8; FORM];

fn feed(state: &mut State, piece: &[u8], replies: &mut [u8]) -> Result<usize, i32> {
    c_calls::feed_alone(state, piece, replies)
}

/// Both give the same replies to a log.
fn same(memory: &Memory, form: &State, log: &[u8], size: usize) -> Result<(), String> {
    let (mut right, mut replies) = (Vec::<u8>::new(), Vec::<u8>::new());
    give(memory, Memory::feed, log, size, |piece| right.extend(piece))?;
    give(form, feed, log, size, |piece| replies.extend(piece))?;
    if replies != right || replies.len() != log.len() {
        return Err("bench: the replies of the C calls differ".to_string());
    }
    Ok(())
}

/// What a C call does besides the records: the state is read, found sound and written. The keeper's
/// own functions find it sound too.
fn parts(memory: &Memory, form: &State) -> String {
    let (mut left, mut buffer, mut state) = (memory.clone(), *form, *form);
    let sound = often(|| black_box(memory).sound());
    let restoring = often(|| left.restore(black_box(form)));
    let saving = often(|| memory.save(black_box(&mut buffer)));
    let own = often(|| left.feed(black_box(&[]), black_box(&mut [])));
    let calls = often(|| c_calls::feed_alone(black_box(&mut state), &[], &mut []));
    format!(
        "of a short piece: soundness test {sound:.0} ns, restore {restoring:.0} ns, save {saving:.0} ns, both with that test; \
         an empty piece {calls:.0} ns by the C call, {own:.0} ns by the keeper's own feed"
    )
}
