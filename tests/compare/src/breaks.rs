//! Logs that are broken off: at the end of every record, and at places within records, the bench is
//! saved, the memory is wiped, and the log goes on from the bench that is restored.

use crate::answers;
use crate::feed;
use crate::keeper::Memory;
use crate::logs::Log;
use crate::saved::{same_bytes, Met};
use crate::starts::Start;
use second::generate::random::Random;
use second::{Bench, FORM};

/// The most bytes of a log that is broken off; as many are one piece.
const MOST: usize = 400;

/// A random log from a bench of this sort, broken off and not: the joined replies and the last bench
/// of both keepers.
pub fn log(random: &mut Random, met: &mut Met, start: Start, bench: &Bench) -> Result<(), String> {
    let log = Log::written(random, &mut answers::Tally::default(), start, bench);
    let bytes = &log.bytes[..log.bytes.len().min(MOST)];
    let mut broken = Pair::new(bench);
    broken.break_off(random, met)?;
    let mut rest = bytes;
    while !rest.is_empty() {
        let missing = 4 - u64::from(broken.second.count);
        let length = if random.percent(40) {
            random.from_to(1, missing)
        } else {
            missing
        };
        let (piece, after) = rest.split_at(rest.len().min(length as usize));
        (broken.feed(piece))
            .and_then(|()| broken.break_off(random, met))
            .map_err(|what| format!("byte {} of a log: {what}", bytes.len() - rest.len()))?;
        rest = after;
    }
    let mut whole = Pair::new(bench);
    whole.feed(bytes)?;
    same_bytes("of the joined replies", &broken.replies, &whole.replies)?;
    let right = &log.replies[..whole.replies.len()];
    same_bytes("of the replies without a break", &whole.replies, right)?;
    if broken.keeper != whole.keeper {
        let what = broken.keeper.difference(&whole.keeper);
        return Err(format!("at the end of a log: {what}"));
    }
    if broken.second != whole.second {
        return Err("at the end of a log the second's benches differ".to_string());
    }
    Ok(())
}

/// A bench of each keeper, and the joined replies.
struct Pair {
    keeper: Memory,
    second: Bench,
    replies: Vec<u8>,
}

impl Pair {
    fn new(bench: &Bench) -> Pair {
        Pair {
            keeper: Memory::from(bench),
            second: bench.clone(),
            replies: Vec::new(),
        }
    }

    /// One piece to both.
    fn feed(&mut self, piece: &[u8]) -> Result<(), String> {
        let buffer = vec![0xA5; piece.len() + 3];
        match feed::same(&mut self.keeper, &mut self.second, piece, &buffer)? {
            Ok(replies) => self.replies.extend(replies),
            Err(number) => return Err(format!("a good piece refused with {number}")),
        }
        Ok(())
    }

    /// Both are saved, wiped and restored.
    fn break_off(&mut self, random: &mut Random, met: &mut Met) -> Result<(), String> {
        met[usize::from(self.second.callback)][usize::from(self.second.count)] += 1;
        let right = second::save(&self.second).map_err(|number| format!("second: {number}"))?;
        let mut form = [0xA5; FORM];
        let number = self.keeper.save(&mut form);
        if number != 0 {
            return Err(format!("not saved: {number}"));
        }
        same_bytes("of the form", &form, &right)?;
        self.keeper = Memory::filled(random.percent(50));
        let number = self.keeper.restore(&form);
        if number != 0 {
            return Err(format!("not restored: {number}"));
        }
        self.second = second::restore(&right).map_err(|number| format!("second: {number}"))?;
        Ok(())
    }
}
