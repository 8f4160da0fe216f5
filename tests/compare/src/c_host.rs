//! A C host: tables loaded, logs fed in random pieces, and questions asked, by calls over bytes. The
//! state passes from call to call as bytes, and sometimes into another buffer.

use crate::answers;
use crate::benches::{good_table, loaded};
use crate::c_calls;
use crate::c_tally::Tally;
use crate::feed::Noise;
use crate::keeper::Memory;
use crate::lent::Buffer;
use crate::logs::{Cut, Log};
use crate::saved::same_bytes;
use crate::starts::{self, Start};
use second::generate::random::Random;
use second::generate::tables;
use second::{Bench, FORM, MAX_PIECE};

/// How many tables are loaded in a round, besides those of the logs.
const LOADS: usize = 6;
/// The most bytes of a log that is cut into short pieces.
const MOST_SHORT: usize = 600;
/// How many bytes of a log follow a piece in the memory, at most.
const AHEAD: usize = 64;

/// Compares the calls in so many rounds: the tally, or the first difference.
pub fn compare(seed: u64, count: u64) -> Result<String, String> {
    let mut random = Random::new(seed);
    let noise = Noise::new(&mut random);
    let mut tally = Tally::default();
    for number in 0..count {
        let (start, _) = starts::ALL[number as usize % starts::ALL.len()];
        let mut host = Host {
            random: &mut random,
            noise: &noise,
            tally: &mut tally,
        };
        host.loads()
            .and_then(|()| host.log(start))
            .map_err(|what| format!("seed {seed}, round {number}: {what}"))?;
    }
    tally.complete(count)?;
    Ok(tally.line(count))
}

/// Who makes the calls.
pub struct Host<'a> {
    pub random: &'a mut Random,
    pub noise: &'a Noise,
    tally: &'a mut Tally,
}

/// A bench as the host keeps it, and as the second has it; that one is never made of bytes.
pub struct Kept {
    pub state: Vec<u8>,
    pub bench: Bench,
    replies: Vec<u8>,
}

impl Kept {
    fn new(state: Vec<u8>, bench: Bench) -> Kept {
        Kept {
            state,
            bench,
            replies: Vec::new(),
        }
    }

    /// The bytes of the replies to a piece of so many bytes.
    pub fn needed(&self, piece: usize) -> usize {
        (usize::from(self.bench.count) + piece) / 4 * 4
    }
}

/// The calls, counted.
impl Host<'_> {
    fn load(&mut self, table: &Buffer, state: &Buffer) -> Result<c_calls::Left, String> {
        let left = c_calls::load(self.random, table, state)
            .map_err(|what| format!("load: {what}; table {:02x?}", table.bytes))?;
        self.tally.load(table, state, left.result);
        Ok(left)
    }

    pub fn feed(
        &mut self,
        state: &Buffer,
        piece: &Buffer,
        replies: &Buffer,
    ) -> Result<c_calls::Left, String> {
        let left = c_calls::feed(self.random, state, piece, replies).map_err(|what| {
            let lengths = [state, piece, replies].map(|buffer| buffer.bytes.len());
            format!("feed, state, piece and replies of {lengths:?} bytes: {what}")
        })?;
        self.tally.feed(state, piece, replies, left.result);
        Ok(left)
    }

    pub fn ask(&mut self, state: &Buffer, questions: &[c_calls::Question]) -> Result<(), String> {
        let form = state.bytes.get(..FORM);
        let bench = form.and_then(|form| second::restore(form).ok());
        let results = c_calls::ask(self.random, state, questions)?;
        for (&question, result) in questions.iter().zip(results) {
            self.tally.ask(state, bench.as_ref(), question, result);
        }
        Ok(())
    }
}

// ---- loading

impl Host<'_> {
    /// Any tables into any room.
    fn loads(&mut self) -> Result<(), String> {
        for _ in 0..LOADS {
            let table = self.any_table();
            let state = self.any_room();
            self.load(&table, &state)?;
        }
        Ok(())
    }

    fn any_table(&mut self) -> Buffer {
        let table = match self.random.below(4) {
            0 | 1 => tables::any(self.random),
            2 => tables::of_any_size(self.random),
            _ => good_table(self.random),
        };
        match self.random.below(40) {
            0 | 1 => Buffer::null(),
            2 | 3 => Buffer::cut(&table, 0),
            4..=7 => Buffer::cut(&table, self.random.below(table.len() as u64 + 1) as usize),
            8 => Buffer::of(&[table, self.block()].concat()),
            _ => Buffer::of(&table),
        }
    }

    /// State bytes to be written: exactly enough, more, or too few; noise, or an older state.
    fn any_room(&mut self) -> Buffer {
        let mut room = self.noise.bytes(self.random, 2 * FORM).to_vec();
        if self.random.percent(20) {
            let older = second::form_of(&loaded(self.random));
            room[..FORM].copy_from_slice(&older);
        }
        let longer = FORM + self.random.from_to(1, 700) as usize;
        let shorter = self.random.below(FORM as u64) as usize;
        match self.random.below(24) {
            0..=5 => Buffer::of(&room[..FORM]),
            6..=10 => Buffer::of(&room[..longer]),
            11 => Buffer::of(&[&self.block(), &room[..shorter]].concat()),
            12..=15 => Buffer::cut(&room, FORM - 1),
            16..=19 => Buffer::cut(&room, shorter),
            20 | 21 => Buffer::cut(&room, 0),
            _ => Buffer::null(),
        }
    }
}

// ---- feeding

impl Host<'_> {
    /// A log from a bench of this sort, with refused pieces, stray states, questions and other
    /// buffers between its pieces. The joined replies and the state that is left are those of the
    /// keepers that have a bench of their own.
    fn log(&mut self, start: Start) -> Result<(), String> {
        let mut kept = self.begun(start)?;
        let bench = kept.bench.clone();
        let mut log = Log::written(self.random, &mut answers::Tally::default(), start, &bench);
        let cut = Cut::any(self.random, log.bytes.len());
        if let Cut::Short = cut {
            log.bytes.truncate(MOST_SHORT);
        }
        let early = self.random.percent(50);
        self.questions(&kept)?;
        if early {
            self.strays(&kept)?;
        }
        let mut rest = &log.bytes[..];
        while !rest.is_empty() {
            let length = cut.next(self.random).min(rest.len());
            self.between(&mut kept, &rest[..length])
                .and_then(|()| self.taken(&mut kept, rest, length))
                .map_err(|what| {
                    format!("byte {} of a log: {what}", log.bytes.len() - rest.len())
                })?;
            rest = &rest[length..];
        }
        self.questions(&kept)?;
        if !early {
            self.strays(&kept)?;
        }
        let right = log
            .replies
            .get(..kept.replies.len())
            .unwrap_or(&log.replies);
        same_bytes("of the joined replies", &kept.replies, right)?;
        unbroken(&kept, &bench, &log.bytes)
    }

    /// The host loads a table, or has the state of a bench of this sort.
    fn begun(&mut self, start: Start) -> Result<Kept, String> {
        if start != Start::Loaded {
            let bench = starts::bench(self.random, start);
            let state = self.carried_over(&second::form_of(&bench));
            return Ok(Kept::new(state, bench));
        }
        let table = good_table(self.random);
        let more = self.random.one_of(&[0, 0, 1, 4, 700]);
        let room = Buffer::of(self.noise.bytes(self.random, FORM + more));
        let left = self.load(&Buffer::of(&table), &room)?;
        let bench = second::load(&table).expect("the table is good");
        Ok(Kept::new(left.state, bench))
    }

    /// A battery change: the state in another buffer, exact or longer.
    fn carried_over(&mut self, state: &[u8]) -> Vec<u8> {
        let more = self.random.one_of(MORE);
        let more = self.noise.bytes(self.random, more);
        [&state[..FORM], more].concat()
    }

    /// What happens before a piece is fed.
    fn between(&mut self, kept: &mut Kept, next: &[u8]) -> Result<(), String> {
        while self.random.percent(25) {
            self.refused(kept, next)?;
        }
        if self.random.percent(5) {
            self.some_questions(kept)?;
        }
        if self.random.percent(15) {
            kept.state = self.carried_over(&kept.state);
        }
        Ok(())
    }

    /// The next piece of a log, with room for its replies, and often more.
    fn taken(&mut self, kept: &mut Kept, log: &[u8], length: usize) -> Result<(), String> {
        let (whole, more) = (kept.needed(length), self.random.one_of(MORE));
        let replies = if self.random.percent(1) {
            Buffer::of(&self.block())
        } else {
            Buffer::of(self.noise.bytes(self.random, whole + more))
        };
        let replies = self.or_null(replies);
        let piece = Buffer::cut(&log[..log.len().min(length + AHEAD)], length);
        let piece = self.or_null(piece);
        let left = self.feed(&Buffer::of(&kept.state), &piece, &replies)?;
        let mut right = replies.bytes;
        let count = kept.bench.feed(&piece.bytes, &mut right);
        if count != usize::try_from(left.result).map_err(|_| 0) {
            return Err(format!("result {}, not {count:?}", left.result));
        }
        same_bytes("of the replies", &left.replies, &right)?;
        let form = second::form_of(&kept.bench);
        same_bytes("of the state", &left.state[..FORM], &form)?;
        kept.replies.extend(&right[..whole]);
        kept.state = left.state;
        Ok(())
    }

    /// A piece that is too long, or has no room for its replies, or both.
    fn refused(&mut self, kept: &Kept, next: &[u8]) -> Result<(), String> {
        let piece = self.any_piece(next);
        let needed = kept.needed(piece.bytes.len());
        let length = if piece.bytes.len() > MAX_PIECE && self.random.percent(50) {
            needed + self.random.one_of(&[0, 1, 5_000])
        } else if needed > 0 {
            self.random.one_of(&[0, needed / 2, needed - 4, needed - 1])
        } else {
            return Ok(());
        };
        let replies = self.room(needed, length);
        let left = self.feed(&Buffer::of(&kept.state), &piece, &replies)?;
        if left.result >= 0 {
            return Err(format!("a bad piece was taken with {}", left.result));
        }
        Ok(())
    }
}

/// How many bytes a buffer has beyond what is needed.
const MORE: &[usize] = &[0, 0, 0, 1, 2, 3, 4, 100, 5_000];

/// The keeper's own feed, without a break and without bytes for the bench, has given the replies
/// that the host has, and left its state.
fn unbroken(kept: &Kept, bench: &Bench, log: &[u8]) -> Result<(), String> {
    let mut memory = Memory::from(bench);
    let (mut joined, mut buffer) = (Vec::<u8>::new(), [0; MAX_PIECE]);
    for piece in log.chunks(MAX_PIECE) {
        let replies = memory
            .feed(piece, &mut buffer)
            .map_err(|number| format!("the keeper's own function refuses a piece with {number}"))?;
        joined.extend(&buffer[..4 * replies]);
    }
    let mut form = [0xA5; FORM];
    memory.save(&mut form);
    same_bytes("of the joined replies", &kept.replies, &joined)?;
    same_bytes("of the state at the end", &kept.state[..FORM], &form)
}
