//! What a C host may lend besides the state of a bench and a good piece: stray state bytes, any
//! pieces and reply buffers; and the questions that it may ask.

use crate::c_calls::Question;
use crate::c_host::{Host, Kept};
use crate::c_tally::{UNKNOWN, WAKE_SET};
use crate::lent::Buffer;
use second::generate::damage::damaged;
use second::generate::random::Random;
use second::generate::tables;
use second::{Bench, FORM};

/// How many questions are asked of each stray state.
const ASKED: usize = 4;

// ---- stray states

impl Host<'_> {
    /// A piece and some questions against each sort of state bytes.
    pub fn strays(&mut self, kept: &Kept) -> Result<(), String> {
        for (number, state) in self.states(kept).iter().enumerate() {
            let at = |what| format!("stray state {number}: {what}");
            let next = self.noise.bytes(self.random, 8);
            let piece = self.any_piece(next);
            let replies = self.any_replies(kept.needed(piece.bytes.len()));
            self.feed(state, &piece, &replies).map_err(at)?;
            let mut questions = questions(self.random, &kept.bench);
            self.random.shuffle(&mut questions);
            self.ask(state, &questions[..ASKED]).map_err(at)?;
        }
        Ok(())
    }

    /// Every sort of state bytes. Most are none of a sound bench, or are too short; some are
    /// another bench's.
    fn states(&mut self, kept: &Kept) -> Vec<Buffer> {
        let form = &kept.state[..FORM];
        let any = self.random.below(FORM as u64) as usize;
        let small = self.random.below(6) as usize;
        let noise = self.noise.bytes(self.random, FORM);
        let mut states = vec![
            Buffer::null(),
            Buffer::cut(form, 0),
            Buffer::cut(form, small),
            Buffer::cut(form, any),
            Buffer::cut(form, FORM - 1),
            // A sound state, with stray bytes behind it.
            Buffer::of(&[form, noise].concat()),
            Buffer::of(&[form, &noise[..1]].concat()),
            Buffer::of(&[form, form].concat()),
            // No state at the start.
            Buffer::of(&[&noise[..1], form].concat()),
            Buffer::of(&form[1..]),
            Buffer::of(noise),
            Buffer::of(&[&form[..5], &noise[5..]].concat()),
            Buffer::of(&[&form[..5], &[0; FORM - 5]].concat()),
            Buffer::of(&[0; FORM]),
            Buffer::of(&tables::small(self.random, 64)),
        ];
        if self.random.percent(10) {
            let long = [form, &self.block()].concat();
            states.push(Buffer::of(&long[..65_536 + small]));
            states.push(Buffer::of(&long));
        }
        // Each byte of the header, and versions.
        let mut headers: Vec<Vec<u8>> = Vec::new();
        for at in 0..5 {
            let mut header = form[..5].to_vec();
            header[at] ^= self.random.from_to(1, 255) as u8;
            headers.push(header);
        }
        for version in [0_u16, 2, 3, 256, 257, 511, 65_535] {
            headers.push([&form[..3], &version.to_le_bytes()].concat());
        }
        states.extend(headers.iter().map(|header| {
            let more = self.random.one_of(&[0, 1, 100]);
            Buffer::of(&[header, &form[5..], &noise[..more]].concat())
        }));
        // Bits and bytes changed, and fields.
        for changes in [1, 1, 1, 2, 3] {
            states.push(Buffer::of(&changed(self.random, form, changes)));
        }
        for _ in 0..4 {
            let form = second::form_of(&damaged(self.random, &kept.bench));
            let more = self.random.one_of(&[0, 0, 1, 100]);
            states.push(Buffer::of(&[&form, &noise[..more]].concat()));
        }
        states
    }
}

/// A form with so many bytes changed.
fn changed(random: &mut Random, form: &[u8], changes: usize) -> Vec<u8> {
    let mut form = form.to_vec();
    for _ in 0..changes {
        let at = random.below(FORM as u64) as usize;
        form[at] = match random.below(4) {
            0 => random.byte(),
            1 => form[at].wrapping_add(1),
            _ => form[at] ^ (1 << random.below(8)),
        };
    }
    form
}

// ---- pieces and reply buffers

impl Host<'_> {
    /// The next piece, another one or one that is too long.
    pub fn any_piece(&mut self, next: &[u8]) -> Buffer {
        let length = match self.random.below(21) {
            0..=4 => return Buffer::of(next),
            5..=9 => self.random.below(900),
            10..=14 => self
                .random
                .one_of(&[4_095, 4_096, 4_097, 4_098, 4_099, 4_100]),
            15..=19 => self.random.from_to(4_097, 9_000),
            _ => {
                let few = self.random.below(8) as usize;
                let few = self.noise.bytes(self.random, few);
                return Buffer::of(&[&self.block(), few].concat());
            }
        };
        let piece = Buffer::of(self.noise.bytes(self.random, length as usize));
        self.or_null(piece)
    }

    /// Room for so many bytes of replies, more, or less.
    fn any_replies(&mut self, needed: usize) -> Buffer {
        let length = match self.random.below(4) {
            0 => needed,
            1 => needed + self.random.one_of(&[1, 4, 5_000]),
            2 => needed.saturating_sub(1),
            _ => 0,
        };
        let replies = self.room(needed, length);
        self.or_null(replies)
    }

    /// A reply buffer of so many bytes. Where more are needed, they follow it in the memory. The
    /// longest pieces, which are refused for their length, get less.
    pub fn room(&mut self, needed: usize, length: usize) -> Buffer {
        let whole = needed.max(length).min(60_000);
        let bytes = self.noise.bytes(self.random, whole);
        Buffer::cut(bytes, length.min(whole))
    }

    /// 65,536 bytes. In 16 bits the length of a buffer is the same with them and without.
    pub fn block(&mut self) -> Vec<u8> {
        self.noise.bytes(self.random, 32_768).repeat(2)
    }

    /// An empty buffer is sometimes a null pointer.
    pub fn or_null(&mut self, buffer: Buffer) -> Buffer {
        if buffer.bytes.is_empty() && self.random.percent(50) {
            return Buffer::null();
        }
        buffer
    }
}

// ---- questions

impl Host<'_> {
    /// Every question about parts of every sort.
    pub fn questions(&mut self, kept: &Kept) -> Result<(), String> {
        let mut all = questions(self.random, &kept.bench);
        if self.random.percent(5) {
            all.extend(every_part(self.random, &kept.bench));
        }
        self.ask(&Buffer::of(&kept.state), &all)
    }

    /// Some of them.
    pub fn some_questions(&mut self, kept: &Kept) -> Result<(), String> {
        let mut all = questions(self.random, &kept.bench);
        all.retain(|_| self.random.percent(10));
        self.ask(&Buffer::of(&kept.state), &all)
    }
}

/// Questions of every sort about parts of every sort.
fn questions(random: &mut Random, bench: &Bench) -> Vec<Question> {
    let n = bench.n;
    let (asked, target) = (bench.asked.into(), bench.target.into());
    let mut all = Vec::new();
    for question in 0..UNKNOWN {
        for part in parts(random, n) {
            all.push([question, part, any_part(random, n)]);
        }
        all.push([question, asked, target]);
        all.push([question, target, asked]);
    }
    for part in parts(random, n) {
        all.push([WAKE_SET, known(random, n), part]);
        all.push([WAKE_SET, part, known(random, n)]);
    }
    for _ in 0..6 {
        let (part, second) = (known(random, n), known(random, n));
        all.push([WAKE_SET, part, part]);
        all.push([WAKE_SET, part, second]);
        all.push([WAKE_SET, part.max(second), part.min(second)]);
    }
    for question in unknown_questions(random) {
        all.push([question, known(random, n), known(random, n)]);
        all.push([question, any_part(random, n), any_part(random, n)]);
    }
    all
}

/// Every question about every part, and one part with every other.
fn every_part(random: &mut Random, bench: &Bench) -> Vec<Question> {
    let (n, one) = (bench.n, known(random, bench.n));
    let mut all = Vec::new();
    for part in 0..u32::from(n) {
        all.extend((0..UNKNOWN).map(|question| [question, part, one]));
        all.push([WAKE_SET, one, part]);
    }
    all
}

/// A part of the bench.
fn known(random: &mut Random, n: u8) -> u32 {
    random.below(n.into()) as u32
}

fn any_number(random: &mut Random) -> u32 {
    random.below(1 << 32) as u32
}

/// Part numbers of every sort: of the bench, around the limits of a bench and of a byte, ones that
/// are a part of the bench in their low byte or their low half, and any.
fn parts(random: &mut Random, n: u8) -> [u32; 19] {
    let part = known(random, n);
    let n = u32::from(n);
    [
        0,
        part,
        n - 1,
        n,
        63,
        64,
        127 + part,
        254,
        255,
        256,
        256 + part,
        65_535,
        65_536 + part,
        (1 << 24) + part,
        1 << 31,
        (1 << 31) + part,
        u32::MAX - 255 + part,
        u32::MAX,
        any_number(random),
    ]
}

fn any_part(random: &mut Random, n: u8) -> u32 {
    let parts = parts(random, n);
    random.one_of(&parts)
}

/// Numbers that are no question's; some are one in their low byte or their low half.
fn unknown_questions(random: &mut Random) -> [u32; 12] {
    let known = random.below(UNKNOWN.into()) as u32;
    [
        UNKNOWN,
        UNKNOWN + 1,
        UNKNOWN + 2,
        255,
        256,
        256 + known,
        65_536 + known,
        (1 << 24) + known,
        (1 << 31) + known,
        u32::MAX - 255 + known,
        u32::MAX,
        any_number(random),
    ]
}
