//! Buffers that are lent to a C call. Each stands in the middle of a larger allocation, between
//! guard bytes, and starts anywhere.

use second::generate::random::Random;

/// How many guard bytes stand before a buffer, and how many behind it, at least.
const GUARD: usize = 64;

/// A buffer to lend: its bytes, and those that follow it in the memory.
#[derive(Clone)]
pub struct Buffer {
    pub bytes: Vec<u8>,
    behind: Vec<u8>,
    null: bool,
}

impl Buffer {
    pub fn of(bytes: &[u8]) -> Buffer {
        Buffer::cut(bytes, bytes.len())
    }

    /// The first of these bytes. The others follow the buffer in the memory, as they do where a C
    /// program gives a length that is too short: what is read past the buffer is what a reader
    /// would expect there.
    pub fn cut(bytes: &[u8], length: usize) -> Buffer {
        let (bytes, behind) = bytes.split_at(length);
        Buffer {
            bytes: bytes.to_vec(),
            behind: behind.to_vec(),
            null: false,
        }
    }

    /// A null pointer with length 0.
    pub fn null() -> Buffer {
        Buffer {
            null: true,
            ..Buffer::of(&[])
        }
    }

    pub fn is_null(&self) -> bool {
        self.null
    }
}

/// A buffer in its allocation.
pub struct Lent {
    memory: Vec<u8>,
    before: Vec<u8>,
    start: usize,
    end: usize,
    null: bool,
}

impl Lent {
    /// Between guard bytes, whose pattern is another each time.
    pub fn guarded(random: &mut Random, buffer: &Buffer) -> Lent {
        let behind = buffer.behind.len();
        let mut lent = Lent::laid(random, buffer, GUARD, GUARD.max(behind));
        lent.memory[lent.end..][..behind].copy_from_slice(&buffer.behind);
        lent.before.clone_from(&lent.memory);
        lent
    }

    /// Without them: the buffer ends where its allocation ends, so that memcheck sees what is read
    /// past it.
    pub fn bare(random: &mut Random, buffer: &Buffer) -> Lent {
        Lent::laid(random, buffer, 0, 0)
    }

    /// So many guard bytes before the buffer, up to 7 more so that it starts anywhere, and so many
    /// behind it.
    fn laid(random: &mut Random, buffer: &Buffer, front: usize, back: usize) -> Lent {
        let (pattern, offset) = (random.byte(), random.below(8) as usize);
        let start = front + offset;
        let end = start + buffer.bytes.len();
        let mut memory = vec![0; end + back];
        for (at, byte) in memory.iter_mut().enumerate() {
            *byte = (at as u8).wrapping_mul(29).wrapping_add(pattern);
        }
        memory[start..end].copy_from_slice(&buffer.bytes);
        Lent {
            before: memory.clone(),
            memory,
            start,
            end,
            null: buffer.null,
        }
    }

    /// The start, as C has it.
    pub fn start(&mut self) -> *mut u8 {
        if self.null {
            return std::ptr::null_mut();
        }
        self.memory[self.start..].as_mut_ptr()
    }

    pub fn length(&self) -> usize {
        self.end - self.start
    }

    /// What a call has left in a buffer that it may write; no byte around it has changed.
    pub fn left(&self, name: &str) -> Result<&[u8], String> {
        self.same(name, 0..self.start)?;
        self.same(name, self.end..self.memory.len())?;
        Ok(&self.memory[self.start..self.end])
    }

    /// A buffer that a call only reads: no byte of it and none around it has changed.
    pub fn stayed(&self, name: &str) -> Result<(), String> {
        self.same(name, 0..self.memory.len())
    }

    /// No byte at these places of the memory has changed.
    fn same(&self, name: &str, places: std::ops::Range<usize>) -> Result<(), String> {
        let (now, before) = (&self.memory[places.clone()], &self.before[places.clone()]);
        if now == before {
            return Ok(());
        }
        let changed = (0..now.len()).find(|&at| now[at] != before[at]);
        let at = changed.unwrap_or(0);
        let place = (places.start + at) as i64 - self.start as i64;
        Err(format!(
            "byte {place} of the {name} buffer, which has {}, has become {}, not {}",
            self.length(),
            now[at],
            before[at]
        ))
    }
}
