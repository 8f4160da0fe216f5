//! Saved states of random benches, sound and damaged: what both keepers write, what they make of
//! whole, changed and stray bytes, and logs that are broken off by saving and restoring.

use crate::answers::ENOUGH;
use crate::benches::damaged_cell;
use crate::breaks;
use crate::keeper::Memory;
use crate::starts::{self, Start};
use second::generate::damage::damaged;
use second::generate::random::Random;
use second::{Bench, FORM, IDLE_CALLBACK, NO_CALLBACK, RESUME_CALLBACK, SUSPEND_CALLBACK};

/// Compares the keepers on so many benches, and on every change of a byte of some forms: the tally,
/// or the first difference.
pub fn compare(seed: u64, count: u64) -> Result<String, String> {
    let mut random = Random::new(seed);
    let mut tally = Tally::default();
    for number in 0..count {
        let (start, _) = starts::ALL[number as usize % starts::ALL.len()];
        let bench = starts::bench(&mut random, start);
        savings(&mut random, &mut tally, &bench)
            .and_then(|()| strays(&mut random, &mut tally, &bench))
            .and_then(|()| breaks::log(&mut random, &mut tally.breaks, start, &bench))
            .map_err(|what| format!("seed {seed}, bench {number}: {what}"))?;
    }
    for (start, callback) in CHANGED {
        let bench = with_callback(&mut random, start, callback);
        let form = second::save(&bench).map_err(|number| format!("not saved: {number}"))?;
        every_change(&mut tally, &form)
            .and_then(|()| every_length(&mut random, &mut tally, &form))
            .map_err(|what| format!("seed {seed}, open callback {callback}, {what}"))?;
    }
    tally.complete(count)?;
    Ok(tally.line(count))
}

/// The bytes are the right ones, or the first that is not.
pub fn same_bytes(what: &str, bytes: &[u8], right: &[u8]) -> Result<(), String> {
    if bytes.len() != right.len() {
        return Err(format!("{} bytes {what}, not {}", bytes.len(), right.len()));
    }
    // At once, which is quicker than one by one.
    if bytes == right {
        return Ok(());
    }
    match (0..right.len()).find(|&at| bytes[at] != right[at]) {
        Some(at) => Err(format!(
            "byte {at} {what}: {}, not {}",
            bytes[at], right[at]
        )),
        None => Ok(()),
    }
}

fn random_bytes(random: &mut Random, length: usize) -> Vec<u8> {
    (0..length).map(|_| random.byte()).collect()
}

// ---- saving

/// The bench itself, one with a field or two damaged and one with any cell damaged, each saved to
/// buffers that have the form's length, are longer and are shorter.
fn savings(random: &mut Random, tally: &mut Tally, bench: &Bench) -> Result<(), String> {
    let memory = Memory::from(bench);
    let fields = Memory::from(&damaged(random, bench));
    let cell = damaged_cell(random, &memory);
    for (variant, memory) in [memory, fields, cell].iter().enumerate() {
        // A value beyond the second's fields is beyond every limit.
        let bench = memory.bench();
        let form = bench.as_ref().map_or(Err(21), second::save);
        for room in [
            FORM,
            FORM + random.from_to(1, 700) as usize,
            FORM - 1,
            random.below(FORM as u64) as usize,
            0,
        ] {
            let buffer = random_bytes(random, room);
            saving(tally, memory, &form, &buffer)
                .map_err(|what| format!("variant {variant} saved to {room} bytes: {what}"))?;
        }
        if let (Some(bench), Ok(form)) = (bench, form) {
            tally.forms[usize::from(bench.callback)][usize::from(bench.count)] += 1;
            let (number, again) = restored(tally, &form)?;
            if number != 0 || again != *memory {
                let what = again.difference(memory);
                return Err(format!("variant {variant} restored: {number}, {what}"));
            }
        }
    }
    Ok(())
}

/// How many bytes stand before a buffer that is lent, and how many after it.
const GUARD: usize = 64;

/// A memory saved to a buffer: the number and every byte are those of the second, which gives its
/// form or refuses it. The bytes around the buffer stay.
fn saving(
    tally: &mut Tally,
    memory: &Memory,
    form: &Result<Vec<u8>, u8>,
    buffer: &[u8],
) -> Result<(), String> {
    let mut right = buffer.to_vec();
    let expected = match (form, right.get_mut(..FORM)) {
        (Err(number), _) => u32::from(*number),
        (Ok(_), None) => 8,
        (Ok(form), Some(front)) => {
            front.copy_from_slice(form);
            0
        }
    };
    let guard = [0xA5; GUARD];
    let mut lent = [&guard, buffer, &guard].concat();
    let end = GUARD + buffer.len();
    let number = memory.save(&mut lent[GUARD..end]);
    if number != expected {
        return Err(format!("answer {number}, not {expected}"));
    }
    same_bytes("of the buffer", &lent[GUARD..end], &right)?;
    if lent[..GUARD] != guard || lent[end..] != guard {
        return Err("bytes around the buffer have changed".to_string());
    }
    tally.saving(number, buffer.len() < FORM)
}

// ---- restoring

/// Some bytes restored by both: the number that both answer, and the memory that is left, that of
/// the empty bench where they are refused; else how the two differ. What is taken is saved as the
/// same bytes.
fn restored(tally: &mut Tally, bytes: &[u8]) -> Result<(u32, Memory), String> {
    // No cell is right unless it is written.
    let mut memory = Memory::filled(true);
    let number = memory.restore(bytes);
    let second = second::restore(bytes);
    let expected = second.as_ref().map_or_else(|&number| number.into(), |_| 0);
    if number != expected {
        return Err(format!("answer {number}, not {expected}"));
    }
    let right = second.map_or_else(|_| Memory::filled(false), |bench| Memory::from(&bench));
    if memory != right {
        let what = memory.difference(&right);
        return Err(format!("answer {number}, {what}"));
    }
    if number == 0 {
        let mut again = [0xA5; FORM];
        let number = memory.save(&mut again);
        if number != 0 {
            return Err(format!("saved again: {number}"));
        }
        same_bytes("saved again", &again, bytes)?;
    }
    tally.restoring(number)?;
    Ok((number, memory))
}

/// Bytes that are no form, or another bench's: spoiled ones, random ones with and without a good
/// header, and the fields of damaged benches.
fn strays(random: &mut Random, tally: &mut Tally, bench: &Bench) -> Result<(), String> {
    let form = second::form_of(bench);
    let mut strays: Vec<Vec<u8>> = (0..12).map(|_| spoiled(random, &form)).collect();
    strays.extend((0..6).map(|_| second::form_of(&damaged(random, bench))));
    let most = random.one_of(&[10, 6_000]);
    let length = random.below(most) as usize;
    strays.push(random_bytes(random, length));
    let mut headed = random_bytes(random, FORM);
    headed[..5].copy_from_slice(&form[..5]);
    strays.push(headed);
    for (number, bytes) in strays.iter().enumerate() {
        restored(tally, bytes)
            .map_err(|what| format!("stray bytes {number} restored, {}: {what}", shown(bytes)))?;
    }
    Ok(())
}

/// A form with another mark, version, length and fields, or some of these.
fn spoiled(random: &mut Random, form: &[u8]) -> Vec<u8> {
    let mut bytes = form.to_vec();
    if random.percent(30) {
        bytes[random.below(3) as usize] = random.one_of(&[0, b'B', b'T', b'W', b'S', b's', 255]);
    }
    if random.percent(30) {
        let any = [random.byte(), random.byte()];
        let version = random.one_of(&[[0, 0], [0, 1], [1, 1], [1, 255], [2, 0], [3, 0], any]);
        bytes[3..5].copy_from_slice(&version);
    }
    if random.percent(50) {
        for _ in 0..random.from_to(1, 3) {
            let at = random.from_to(5, FORM as u64 - 1) as usize;
            let any = random.byte();
            bytes[at] = random.one_of(&[0, 1, 2, 255, any, bytes[at] ^ 1]);
        }
    }
    if random.percent(30) {
        let any = random.below(FORM as u64) as usize;
        let length = random.one_of(&[0, 1, 2, 3, 4, 5, 6, any, FORM - 1, FORM + 1, FORM + any]);
        bytes.resize(length, random.one_of(&[0, 255]));
    }
    bytes
}

/// The length of some bytes and the first of them.
fn shown(bytes: &[u8]) -> String {
    let first = &bytes[..bytes.len().min(5)];
    format!("{} bytes, {first:02x?}", bytes.len())
}

// ---- every change of a form

/// The sorts of benches whose forms are changed in every byte, and the callback that is open.
const CHANGED: [(Start, u8); 4] = [
    (Start::Open, SUSPEND_CALLBACK),
    (Start::Open, RESUME_CALLBACK),
    (Start::Open, IDLE_CALLBACK),
    (Start::Crowded, NO_CALLBACK),
];

/// A bench of this sort with this callback open.
fn with_callback(random: &mut Random, start: Start, callback: u8) -> Bench {
    loop {
        let bench = starts::bench(random, start);
        if bench.callback == callback {
            return bench;
        }
    }
}

/// Each byte of a form changed to each other value: it is refused, or another bench's form.
fn every_change(tally: &mut Tally, form: &[u8]) -> Result<(), String> {
    let mut changed = form.to_vec();
    for at in 0..form.len() {
        for value in (0..=255).filter(|&value| value != form[at]) {
            changed[at] = value;
            let (number, _) = restored(tally, &changed)
                .map_err(|what| format!("byte {at} is {value}: {what}"))?;
            tally.changed[usize::from(number == 0)] += 1;
        }
        changed[at] = form[at];
    }
    Ok(())
}

/// Every shorter length of a form, and longer by 1 to 16 bytes.
fn every_length(random: &mut Random, tally: &mut Tally, form: &[u8]) -> Result<(), String> {
    let longer = [form, &random_bytes(random, 16)].concat();
    for length in (0..=longer.len()).filter(|&length| length != FORM) {
        let (number, _) =
            restored(tally, &longer[..length]).map_err(|what| format!("{length} bytes: {what}"))?;
        let right = if length < 5 { 1 } else { 5 };
        if number != right {
            return Err(format!("{length} bytes: {number}, not {right}"));
        }
    }
    Ok(())
}

// ---- what was met

/// Request Four: the answers of saving, and those of restoring.
const SAVINGS: [u32; 3] = [0, 8, 21];
const RESTORINGS: [u32; 6] = [0, 1, 2, 3, 5, 21];

/// Sound benches by the kind of the open callback, and by how many bytes they carry.
pub type Met = [[u64; 4]; 4];

#[derive(Default)]
struct Tally {
    savings: [u64; SAVINGS.len()],
    /// Savings refused with 21 for a buffer that is short too.
    both: u64,
    restorings: [u64; RESTORINGS.len()],
    /// Changes of a byte that are refused, and that are another bench's form.
    changed: [u64; 2],
    /// Benches that were saved.
    forms: Met,
    /// Benches at which a log was broken off.
    breaks: Met,
}

impl Tally {
    fn saving(&mut self, number: u32, short: bool) -> Result<(), String> {
        self.both += u64::from(number == 21 && short);
        count(&mut self.savings, &SAVINGS, number)
    }

    fn restoring(&mut self, number: u32) -> Result<(), String> {
        count(&mut self.restorings, &RESTORINGS, number)
    }

    /// Everything was met, if there were enough benches.
    fn complete(&self, benches: u64) -> Result<(), String> {
        let [open, carried] = sums(&self.forms);
        let met = [
            &self.savings[..],
            &[self.both],
            &self.restorings,
            &self.changed,
            &open,
            &carried,
            self.breaks.as_flattened(),
        ];
        if benches >= ENOUGH && met.concat().contains(&0) {
            return Err(format!("a count is 0: {}", self.line(benches)));
        }
        Ok(())
    }

    /// The counts on one line.
    fn line(&self, benches: u64) -> String {
        let [written, room, unsound] = self.savings;
        let [taken, short, mark, version, length, no_form] = self.restorings;
        let [refused, others] = self.changed;
        format!(
            "saved: {benches} benches, each also damaged: written {written}, \
             refused 8: {room}, 21: {unsound} ({} with a short buffer too); restored {taken}, \
             refused 1: {short}, 2: {mark}, 3: {version}, 5: {length}, 21: {no_form}; \
             of {} changes of a byte {refused} refused, {others} another bench's form; \
             forms with {}; logs broken off with {}",
            self.both,
            refused + others,
            by_callback(&self.forms),
            by_callback(&self.breaks),
        )
    }
}

/// One more of a number that is known.
fn count(counts: &mut [u64], known: &[u32], number: u32) -> Result<(), String> {
    match known.iter().position(|&known| known == number) {
        Some(at) => counts[at] += 1,
        None => return Err(format!("answer {number}")),
    }
    Ok(())
}

/// How many have each callback open, and how many carry each number of bytes.
fn sums(met: &Met) -> [[u64; 4]; 2] {
    [
        met.map(|carried| carried.iter().sum()),
        [0, 1, 2, 3].map(|carried| met.iter().map(|counts| counts[carried]).sum()),
    ]
}

fn by_callback(met: &Met) -> String {
    let [[none, suspend, resume, idle], [zero, one, two, three]] = sums(met);
    format!(
        "none open {none}, suspend {suspend}, resume {resume}, idle {idle}, \
         0 bytes carried {zero}, 1: {one}, 2: {two}, 3: {three}"
    )
}
