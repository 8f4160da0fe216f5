//! The keeper's exported functions, made safe to call, and the memory that they work on.

use crate::layout::{field, layout, Place, BYTES, FIELDS, WORDS};
use second::{Bench, DEVICE_ROWS};

/// The marks of a set of devices.
pub type Marks = [bool; DEVICE_ROWS];

/// A bench as the keeper is lent it.
#[derive(Clone, PartialEq)]
pub struct Memory {
    bytes: [u8; BYTES],
    words: [u32; WORDS],
}

type Bytes = [u8; BYTES];
type Words = [u32; WORDS];

// A reference to an array is passed as its start, a slice as its start and its length.
extern "C" {
    fn tests_bytes() -> u32;
    fn tests_words() -> u32;
    fn tests_cell(bytes: &Bytes, words: &Words, field: u8, row: u16) -> u32;
    fn tests_set_cell(bytes: &mut Bytes, words: &mut Words, field: u8, row: u16, value: u32);
    fn tests_wake_set(bytes: &Bytes, words: &Words, t: u8, out: &mut Marks);
    fn tests_wake_recursion(bytes: &Bytes, words: &Words, t: u8, out: &mut Marks);
    fn tests_lowest(bytes: &Bytes, words: &Words, t: u8) -> u8;
    fn tests_parents_above(bytes: &Bytes, p: u8) -> u8;
    fn tests_set_status(bytes: &mut Bytes, words: &mut Words, p: u8, v: u8);
    fn tests_sound(bytes: &Bytes, words: &Words) -> bool;
    fn tests_step(bytes: &mut Bytes, words: &mut Words, kind: u8, device: u8, value: u16) -> u32;
    fn tests_ask(bytes: &Bytes, words: &Words, question: u8, p: u8, q: u8) -> u64;
    fn tests_request(bytes: &mut Bytes, words: &mut Words, kind: u8, p: u8, v: u16) -> u32;
    fn tests_load(
        table: *const u8,
        table_length: usize,
        bytes: &mut Bytes,
        words: &mut Words,
    ) -> u32;
    fn tests_feed(
        bytes: &mut Bytes,
        words: &mut Words,
        piece: *const u8,
        piece_length: usize,
        replies: *mut u8,
        replies_length: usize,
    ) -> u32;
    fn tests_write(
        devices: *const u8,
        devices_length: usize,
        links: *const u8,
        links_length: usize,
        out: *mut u8,
        out_length: usize,
    ) -> u32;
    fn tests_save(bytes: &Bytes, words: &Words, out: *mut u8, out_length: usize) -> u32;
    fn tests_restore(
        form: *const u8,
        form_length: usize,
        bytes: &mut Bytes,
        words: &mut Words,
    ) -> u32;
}

/// How many bytes and words a bench has, by the keeper.
pub fn sizes() -> (u32, u32) {
    // SAFETY: the functions only answer.
    unsafe { (tests_bytes(), tests_words()) }
}

/// What writing the table of two lists leaves in a buffer: the number and the index that the lists
/// are refused with, 0 and 0 where the table is written.
pub fn write(devices: &[u8], links: &[u8], buffer: &mut [u8]) -> (u32, u32) {
    // SAFETY: the function reads the two lists, writes the buffer, and nothing else.
    let code = unsafe {
        tests_write(
            devices.as_ptr(),
            devices.len(),
            links.as_ptr(),
            links.len(),
            buffer.as_mut_ptr(),
            buffer.len(),
        )
    };
    (code % 256, code / 256)
}

/// The keeper's functions. Each reads the arrays and the slices that it is lent, writes those lent
/// to be written, and nothing else: that is why the calls are safe.
impl Memory {
    /// A cell by its field and row; 0 where there is none.
    pub fn cell(&self, field: u8, row: u16) -> u32 {
        // SAFETY: see above.
        unsafe { tests_cell(&self.bytes, &self.words, field, row) }
    }

    /// Sets a cell, of a byte to the low byte of the value; nothing where there is none.
    pub fn set_cell(&mut self, field: u8, row: u16, value: u32) {
        // SAFETY: see above.
        unsafe { tests_set_cell(&mut self.bytes, &mut self.words, field, row, value) };
    }

    /// The wake set of a device.
    pub fn wake_set(&self, device: u8) -> Marks {
        // No mark is right unless it is written.
        let mut marks = [true; DEVICE_ROWS];
        // SAFETY: see above.
        unsafe { tests_wake_set(&self.bytes, &self.words, device, &mut marks) };
        marks
    }

    /// The same by the recursion.
    pub fn wake_recursion(&self, device: u8) -> Marks {
        let mut marks = [true; DEVICE_ROWS];
        // SAFETY: see above.
        unsafe { tests_wake_recursion(&self.bytes, &self.words, device, &mut marks) };
        marks
    }

    /// The lowest member of the wake set of a device; n where it has none.
    pub fn lowest(&self, device: u8) -> u8 {
        // SAFETY: see above.
        unsafe { tests_lowest(&self.bytes, &self.words, device) }
    }

    /// How many parents stand above a device.
    pub fn parents_above(&self, device: u8) -> u8 {
        // SAFETY: see above.
        unsafe { tests_parents_above(&self.bytes, device) }
    }

    /// The status of a device becomes v, and the counts follow.
    pub fn set_status(&mut self, device: u8, v: u8) {
        // SAFETY: see above.
        unsafe { tests_set_status(&mut self.bytes, &mut self.words, device, v) };
    }

    /// Whether the bench is sound.
    pub fn sound(&self) -> bool {
        // SAFETY: see above.
        unsafe { tests_sound(&self.bytes, &self.words) }
    }

    /// One record: its reply.
    pub fn step(&mut self, record: [u8; 4]) -> [u8; 4] {
        let [kind, device, low, high] = record;
        let value = u16::from_le_bytes([low, high]);
        // SAFETY: see above.
        let reply = unsafe { tests_step(&mut self.bytes, &mut self.words, kind, device, value) };
        reply.to_le_bytes()
    }

    /// A question by its number: 256 times what is told, or the number of the refusal.
    pub fn ask(&self, question: u8, device: u8, other: u8) -> u64 {
        // SAFETY: see above.
        unsafe { tests_ask(&self.bytes, &self.words, question, device, other) }
    }

    /// The method of a record's kind: its reply, 21 alone for a bench that isn't sound.
    pub fn request(&mut self, record: [u8; 4]) -> [u8; 4] {
        let [kind, device, low, high] = record;
        let value = u16::from_le_bytes([low, high]);
        // SAFETY: see above.
        let reply = unsafe { tests_request(&mut self.bytes, &mut self.words, kind, device, value) };
        reply.to_le_bytes()
    }

    /// What loading a table leaves in this memory: the number and the index that it is refused
    /// with, 0 and 0 where it is taken.
    pub fn load(&mut self, table: &[u8]) -> (u32, u32) {
        let (start, length) = (table.as_ptr(), table.len());
        // SAFETY: see above.
        let code = unsafe { tests_load(start, length, &mut self.bytes, &mut self.words) };
        (code % 256, code / 256)
    }

    /// A piece of log: how many replies were written, or the number of the refusal, which is the
    /// whole answer.
    pub fn feed(&mut self, piece: &[u8], replies: &mut [u8]) -> Result<usize, u32> {
        // SAFETY: see above.
        let answer = unsafe {
            tests_feed(
                &mut self.bytes,
                &mut self.words,
                piece.as_ptr(),
                piece.len(),
                replies.as_mut_ptr(),
                replies.len(),
            )
        };
        match answer % 256 {
            0 => Ok(answer as usize / 256),
            _ => Err(answer),
        }
    }

    /// Saves the bench to a buffer: the number of the refusal, 0 where the form is written.
    pub fn save(&self, buffer: &mut [u8]) -> u32 {
        let (start, length) = (buffer.as_mut_ptr(), buffer.len());
        // SAFETY: see above.
        unsafe { tests_save(&self.bytes, &self.words, start, length) }
    }

    /// What restoring a form leaves in this memory: the number that it is refused with, 0 where it
    /// is taken.
    pub fn restore(&mut self, form: &[u8]) -> u32 {
        let (start, length) = (form.as_ptr(), form.len());
        // SAFETY: see above.
        unsafe { tests_restore(start, length, &mut self.bytes, &mut self.words) }
    }
}

/// The cells, by the places that `layout::probe` has found.
impl Memory {
    /// Every bit of every cell is this one.
    pub fn filled(bit: bool) -> Memory {
        Memory {
            bytes: [if bit { u8::MAX } else { 0 }; BYTES],
            words: [if bit { u32::MAX } else { 0 }; WORDS],
        }
    }

    /// The places of the cells that are not zero.
    pub fn set_places(&self) -> Vec<Place> {
        let bytes = (0..BYTES).filter(|&at| self.bytes[at] != 0);
        let words = (0..WORDS).filter(|&at| self.words[at] != 0);
        bytes
            .map(Place::Byte)
            .chain(words.map(Place::Word))
            .collect()
    }

    /// What stands at a place.
    pub fn at(&self, place: Place) -> u32 {
        match place {
            Place::Byte(at) => self.bytes[at].into(),
            Place::Word(at) => self.words[at],
        }
    }

    /// Puts a value at a place, of a byte the low byte.
    pub fn put(&mut self, place: Place, value: u32) {
        match place {
            Place::Byte(at) => self.bytes[at] = value as u8,
            Place::Word(at) => self.words[at] = value,
        }
    }

    /// Puts values into the rows of a field. None of them is beyond the field's cells.
    fn fill<T: Copy + Into<u16>>(&mut self, field: usize, values: &[T]) {
        match layout().start(field) {
            Place::Byte(at) => {
                for (cell, value) in self.bytes[at..].iter_mut().zip(values) {
                    *cell = (*value).into() as u8;
                }
            }
            Place::Word(at) => {
                for (cell, value) in self.words[at..].iter_mut().zip(values) {
                    *cell = u32::from((*value).into());
                }
            }
        }
    }

    /// The rows of a field; none where a value is beyond the second's field.
    fn column<T: Copy + Default + TryFrom<u32>, const N: usize>(
        &self,
        field: usize,
    ) -> Option<[T; N]> {
        let mut column = [T::default(); N];
        for (row, value) in column.iter_mut().enumerate() {
            *value = self.at(layout().place(field, row)).try_into().ok()?;
        }
        Some(column)
    }

    /// A number of the whole bench.
    fn number<T: Copy + Default + TryFrom<u32>>(&self, field: usize) -> Option<T> {
        self.column(field).map(|[value]: [T; 1]| value)
    }

    /// The bench that stands here, in the fields of the second; none where a value is beyond its
    /// field there, and so beyond every limit.
    pub fn bench(&self) -> Option<Bench> {
        Some(Bench {
            n: self.number(field::N)?,
            m: self.number(field::M)?,
            parent: self.column(field::PARENT)?,
            ignore: self.column(field::IGNORE)?,
            status: self.column(field::STATUS)?,
            holds: self.column(field::HOLDS)?,
            depth: self.column(field::DEPTH)?,
            error: self.column(field::ERROR)?,
            children: self.column(field::CHILDREN)?,
            linked: self.column(field::LINKED)?,
            consumer: self.column(field::CONSUMER)?,
            supplier: self.column(field::SUPPLIER)?,
            flags: self.column(field::FLAGS)?,
            callback: self.number(field::CALLBACK)?,
            asked: self.number(field::ASKED)?,
            target: self.number(field::TARGET)?,
            carried: self.column(field::CARRIED)?,
            count: self.number(field::USED)?,
        })
    }

    /// The first cell in which this memory is not the right one.
    pub fn difference(&self, right: &Memory) -> String {
        for (number, field) in FIELDS.iter().enumerate() {
            for row in 0..field.rows {
                let place = layout().place(number, row);
                let (value, right) = (self.at(place), right.at(place));
                if value != right {
                    return format!("{}, row {row}: {value}, not {right}", field.name);
                }
            }
        }
        "the benches do not differ".to_string()
    }
}

impl From<&Bench> for Memory {
    fn from(b: &Bench) -> Memory {
        let mut memory = Memory::filled(false);
        memory.fill(field::PARENT, &b.parent);
        memory.fill(field::IGNORE, &b.ignore);
        memory.fill(field::STATUS, &b.status);
        memory.fill(field::DEPTH, &b.depth);
        memory.fill(field::CHILDREN, &b.children);
        memory.fill(field::CONSUMER, &b.consumer);
        memory.fill(field::SUPPLIER, &b.supplier);
        memory.fill(field::FLAGS, &b.flags);
        memory.fill(field::HOLDS, &b.holds);
        memory.fill(field::ERROR, &b.error);
        memory.fill(field::LINKED, &b.linked);
        memory.fill(field::N, &[b.n]);
        memory.fill(field::M, &[b.m]);
        memory.fill(field::CALLBACK, &[b.callback]);
        memory.fill(field::ASKED, &[b.asked]);
        memory.fill(field::TARGET, &[b.target]);
        memory.fill(field::USED, &[b.count]);
        memory.fill(field::CARRIED, &b.carried);
        memory
    }
}
