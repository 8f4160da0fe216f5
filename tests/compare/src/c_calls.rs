//! The calls of a C host: what each answers and leaves is what the keeper's own functions and the
//! second implementation make of the same bytes.

use crate::keeper::Memory;
use crate::lent::{Buffer, Lent};
use crate::saved::same_bytes;
use second::generate::random::Random;
use second::{host, FORM};

extern "C" {
    fn keeper_load(
        table: *const u8,
        table_length: usize,
        state: *mut u8,
        state_length: usize,
    ) -> i32;
    fn keeper_feed(
        state: *mut u8,
        state_length: usize,
        piece: *const u8,
        piece_length: usize,
        replies: *mut u8,
        replies_length: usize,
    ) -> i32;
    fn keeper_ask(
        state: *const u8,
        state_length: usize,
        question: u32,
        part: u32,
        second: u32,
    ) -> i32;
}

/// What a call leaves: its result, the state bytes and the reply buffer.
pub struct Left {
    pub result: i32,
    pub state: Vec<u8>,
    pub replies: Vec<u8>,
}

impl Left {
    /// What a function makes of copies of the buffers that it may write.
    fn by(
        state: &Buffer,
        replies: &Buffer,
        call: impl FnOnce(&mut [u8], &mut [u8]) -> i32,
    ) -> Left {
        let (mut state, mut replies) = (state.bytes.clone(), replies.bytes.clone());
        Left {
            result: call(&mut state, &mut replies),
            state,
            replies,
        }
    }

    /// It is what another one has left.
    fn same(&self, whose: &str, right: &Left) -> Result<(), String> {
        if self.result != right.result {
            let (result, right) = (self.result, right.result);
            return Err(format!("result {result}, not {right} as by {whose}"));
        }
        same_bytes("of the state", &self.state, &right.state)
            .and_then(|()| same_bytes("of the replies", &self.replies, &right.replies))
            .map_err(|what| format!("result {}, {what} as by {whose}", self.result))
    }

    /// A refusal has written nothing; else what follows the form and the replies has stayed.
    fn rest_stays(&self, state: &Buffer, replies: &Buffer) -> Result<(), String> {
        let (form, written) = match usize::try_from(self.result) {
            Ok(count) => (FORM, 4 * count),
            Err(_) => (0, 0),
        };
        if self.state.get(form..) != state.bytes.get(form..)
            || self.replies.get(written..) != replies.bytes.get(written..)
        {
            return Err(format!("result {}, and the rest has changed", self.result));
        }
        Ok(())
    }
}

/// How buffers are lent: each call is made with guarded ones, one in so many also with bare ones.
type Lending = fn(&mut Random, &Buffer) -> Lent;
const BARE_ONE_IN: u64 = 8;

/// A call with its buffers lent in both ways: what it leaves.
fn lent(
    random: &mut Random,
    call: impl Fn(&mut Random, Lending) -> Result<Left, String>,
) -> Result<Left, String> {
    let left = call(random, Lent::guarded)?;
    if random.below(BARE_ONE_IN) == 0 {
        call(random, Lent::bare)?.same("the same call between guard bytes", &left)?;
    }
    Ok(left)
}

/// A table loaded into state bytes.
pub fn load(random: &mut Random, table: &Buffer, state: &Buffer) -> Result<Left, String> {
    let none = Buffer::of(&[]);
    let left = lent(random, |random, lend| {
        let (mut table, mut state) = (lend(random, table), lend(random, state));
        // SAFETY: the function reads the table, writes the state bytes, and nothing else.
        let result =
            unsafe { keeper_load(table.start(), table.length(), state.start(), state.length()) };
        table.stayed("table")?;
        Ok(Left {
            result,
            state: state.left("state")?.to_vec(),
            replies: Vec::new(),
        })
    })?;
    let own = Left::by(state, &none, |state, _| own_load(&table.bytes, state));
    let second = Left::by(state, &none, |state, _| host::load(&table.bytes, state));
    left.same("the keeper's own functions", &own)?;
    left.same("the second", &second)?;
    left.rest_stays(state, &none)?;
    Ok(left)
}

/// A piece of log fed against state bytes.
pub fn feed(
    random: &mut Random,
    state: &Buffer,
    piece: &Buffer,
    replies: &Buffer,
) -> Result<Left, String> {
    let left = lent(random, |random, lend| {
        let (mut state, mut piece) = (lend(random, state), lend(random, piece));
        let mut replies = lend(random, replies);
        // SAFETY: the function reads the piece, writes the other buffers, and nothing else.
        let result = unsafe {
            keeper_feed(
                state.start(),
                state.length(),
                piece.start(),
                piece.length(),
                replies.start(),
                replies.length(),
            )
        };
        piece.stayed("piece")?;
        Ok(Left {
            result,
            state: state.left("state")?.to_vec(),
            replies: replies.left("reply")?.to_vec(),
        })
    })?;
    let piece = &piece.bytes[..];
    let own = Left::by(state, replies, |state, replies| {
        own_feed(state, piece, replies)
    });
    let second = Left::by(state, replies, |state, replies| {
        host::feed(state, piece, replies)
    });
    left.same("the keeper's own functions", &own)?;
    left.same("the second", &second)?;
    left.rest_stays(state, replies)?;
    Ok(left)
}

/// The numbers of a question, of the part that it is about, and of the second part.
pub type Question = [u32; 3];

/// Questions asked of state bytes: the results.
pub fn ask(
    random: &mut Random,
    state: &Buffer,
    questions: &[Question],
) -> Result<Vec<i32>, String> {
    let memory = restored(&state.bytes);
    let mut guarded = Lent::guarded(random, state);
    let mut bare = Lent::bare(random, state);
    let mut results = Vec::new();
    for &question in questions {
        let at = |what: String| format!("question {question:?}: {what}");
        let result = ask_lent(&mut guarded, question).map_err(at)?;
        if random.below(BARE_ONE_IN) == 0 && ask_lent(&mut bare, question).map_err(at)? != result {
            return Err(at(format!("result {result} between guard bytes only")));
        }
        let own = own_ask(memory.as_ref(), question);
        let [number, part, second] = question;
        let second = host::ask(&state.bytes, number, part, second);
        if [own, second] != [result; 2] {
            return Err(at(format!(
                "result {result}, not {own} as by the keeper's own functions, {second} by the second"
            )));
        }
        results.push(result);
    }
    Ok(results)
}

fn ask_lent(state: &mut Lent, [question, part, second]: Question) -> Result<i32, String> {
    // SAFETY: the function reads the state bytes, and nothing else.
    let result = unsafe { keeper_ask(state.start(), state.length(), question, part, second) };
    state.stayed("state")?;
    Ok(result)
}

/// Feeds a piece against state bytes that are not lent, for the times.
pub fn feed_alone(state: &mut [u8], piece: &[u8], replies: &mut [u8]) -> Result<usize, i32> {
    // SAFETY: the function reads the piece, writes the other buffers, and nothing else.
    let result = unsafe {
        keeper_feed(
            state.as_mut_ptr(),
            state.len(),
            piece.as_ptr(),
            piece.len(),
            replies.as_mut_ptr(),
            replies.len(),
        )
    };
    usize::try_from(result).map_err(|_| result)
}

// ---- the same by the keeper's own functions

/// The bench that state bytes begin with.
fn restored(state: &[u8]) -> Option<Memory> {
    // No cell is right unless it is written.
    let mut memory = Memory::filled(true);
    (memory.restore(state.get(..FORM)?) == 0).then_some(memory)
}

fn own_load(table: &[u8], state: &mut [u8]) -> i32 {
    let mut memory = Memory::filled(true);
    match memory.load(table) {
        (0, _) => -(memory.save(state) as i32),
        (number, _) => -(number as i32),
    }
}

fn own_feed(state: &mut [u8], piece: &[u8], replies: &mut [u8]) -> i32 {
    let Some(mut memory) = restored(state) else {
        return -21;
    };
    match memory.feed(piece, replies) {
        Ok(count) => match memory.save(state) {
            0 => count as i32,
            number => -(number as i32),
        },
        Err(number) => -(number as i32),
    }
}

/// The numbers of the questions in the keeper's own function, by those of a C host: status, use
/// count, child count, user holds, wake set, parents above.
const OWN: [u8; 6] = [0, 2, 3, 1, 5, 4];

/// The keeper's own functions have parts of one byte, and no unknown questions.
fn own_ask(memory: Option<&Memory>, [question, part, second]: Question) -> i32 {
    let Some(memory) = memory else {
        return -21;
    };
    let own = OWN.get(question as usize);
    let second = if question == 4 { second } else { 0 };
    let (Some(&own), Ok(part), Ok(second)) = (own, part.try_into(), second.try_into()) else {
        return -24;
    };
    match memory.ask(own, part, second) {
        code if code % 256 != 0 => -((code % 256) as i32),
        code => (code / 256) as i32,
    }
}
