//! Where the fields of a bench stand in the keeper's memory. Only the keeper knows; this program
//! finds it out, by setting each cell of a memory of zeros and looking what has changed.

use crate::keeper::{self, Memory};
use second::{DEVICE_ROWS, LINK_ROWS};
use std::sync::OnceLock;

/// How many bytes and words a bench has: as many as there are cells.
pub const BYTES: usize = 5 * DEVICE_ROWS + 3 * LINK_ROWS + 8;
pub const WORDS: usize = 3 * DEVICE_ROWS + 1;

/// A field: its name, and where the keeper has it: a field number, the first row there, and how
/// many rows it has.
pub struct Field {
    pub name: &'static str,
    number: u8,
    first: u16,
    pub rows: usize,
}

const fn column(name: &'static str, number: u8, rows: usize) -> Field {
    Field {
        name,
        number,
        first: 0,
        rows,
    }
}

/// The numbers of the whole bench are one field of the keeper's.
const NUMBERS: u8 = 11;

const fn number(name: &'static str, first: u16, rows: usize) -> Field {
    Field {
        name,
        number: NUMBERS,
        first,
        rows,
    }
}

/// The fields.
pub const FIELDS: [Field; 18] = [
    column("parent", 0, DEVICE_ROWS),
    column("ignore", 1, DEVICE_ROWS),
    column("status", 2, DEVICE_ROWS),
    column("depth", 3, DEVICE_ROWS),
    column("children", 4, DEVICE_ROWS),
    column("consumer", 5, LINK_ROWS),
    column("supplier", 6, LINK_ROWS),
    column("flags", 7, LINK_ROWS),
    column("holds", 8, DEVICE_ROWS),
    column("error", 9, DEVICE_ROWS),
    column("linked", 10, DEVICE_ROWS),
    number("n", 0, 1),
    number("m", 1, 1),
    number("callback", 2, 1),
    number("asked", 3, 1),
    number("target", 4, 1),
    number("used", 5, 1),
    number("carried", 6, 3),
];

impl Field {
    /// A row of the field in the keeper's numbers.
    fn row(&self, row: usize) -> (u8, u16) {
        (self.number, self.first + row as u16)
    }
}

/// The places of the fields in that list.
pub mod field {
    pub const PARENT: usize = 0;
    pub const IGNORE: usize = 1;
    pub const STATUS: usize = 2;
    pub const DEPTH: usize = 3;
    pub const CHILDREN: usize = 4;
    pub const CONSUMER: usize = 5;
    pub const SUPPLIER: usize = 6;
    pub const FLAGS: usize = 7;
    pub const HOLDS: usize = 8;
    pub const ERROR: usize = 9;
    pub const LINKED: usize = 10;
    pub const N: usize = 11;
    pub const M: usize = 12;
    pub const CALLBACK: usize = 13;
    pub const ASKED: usize = 14;
    pub const TARGET: usize = 15;
    pub const USED: usize = 16;
    pub const CARRIED: usize = 17;
}

/// A place in the memory.
#[derive(Clone, Copy, Debug, PartialEq)]
pub enum Place {
    Byte(usize),
    Word(usize),
}

impl Place {
    /// So many places on.
    fn after(self, rows: usize) -> Place {
        match self {
            Place::Byte(at) => Place::Byte(at + rows),
            Place::Word(at) => Place::Word(at + rows),
        }
    }

    /// The place number of all the bytes and then the words.
    pub fn numbered(number: usize) -> Place {
        match number.checked_sub(BYTES) {
            None => Place::Byte(number),
            Some(at) => Place::Word(at),
        }
    }
}

/// Where each field starts. Its rows stand one behind another.
pub struct Layout([Place; FIELDS.len()]);

static FOUND: OnceLock<Layout> = OnceLock::new();

/// The layout that was found.
pub fn layout() -> &'static Layout {
    FOUND.get().expect("the memory was probed")
}

impl Layout {
    pub fn start(&self, field: usize) -> Place {
        self.0[field]
    }

    pub fn place(&self, field: usize, row: usize) -> Place {
        self.start(field).after(row)
    }
}

/// Finds the layout, or says what is wrong with it.
pub fn probe() -> Result<(), String> {
    let sizes = keeper::sizes();
    if sizes != (BYTES as u32, WORDS as u32) {
        return Err(format!("sizes {sizes:?}, not {BYTES} and {WORDS}"));
    }
    let mut starts = [Place::Byte(0); FIELDS.len()];
    let mut cells = Memory::filled(false);
    for (field, start) in FIELDS.iter().zip(&mut starts) {
        for row in 0..field.rows {
            let at = |what| format!("{}, row {row}: {what}", field.name);
            let place = probed(field.row(row)).map_err(at)?;
            if row == 0 {
                *start = place;
            }
            if place != start.after(row) || cells.at(place) != 0 {
                return Err(at(format!("it stands at {place:?}")));
            }
            cells.put(place, 1);
        }
        if field.number != NUMBERS {
            beyond(field.number, [field.rows, field.rows + 1, 65_535])?;
        }
    }
    beyond(NUMBERS, [9, 10, 255, 256, 65_535])?;
    for number in NUMBERS + 1..=255 {
        beyond(number, [0, 1, 255, 65_535])?;
    }
    let all = (0..BYTES + WORDS).map(Place::numbered);
    if let Some(place) = all.into_iter().find(|&place| cells.at(place) == 0) {
        return Err(format!("no field stands at {place:?}"));
    }
    FOUND.get_or_init(|| Layout(starts));
    Ok(())
}

/// The place of a cell: the only one that setting it changes, and the one that it is read from.
fn probed((number, row): (u8, u16)) -> Result<Place, String> {
    const VALUE: u32 = 0x8765_43a5;
    let mut memory = Memory::filled(false);
    memory.set_cell(number, row, VALUE);
    let [place] = memory.set_places()[..] else {
        return Err(format!("{} cells have changed", memory.set_places().len()));
    };
    let value = match place {
        Place::Byte(_) => VALUE % 256,
        Place::Word(_) => VALUE,
    };
    if memory.at(place) != value || memory.cell(number, row) != value {
        return Err(format!("{VALUE} is kept as {}", memory.at(place)));
    }
    Ok(place)
}

/// Rows that a field does not have are read as 0, and setting them changes nothing.
fn beyond(number: u8, rows: impl IntoIterator<Item = usize>) -> Result<(), String> {
    let full = Memory::filled(true);
    for row in rows {
        let row = row as u16;
        let mut memory = full.clone();
        memory.set_cell(number, row, 0);
        if full.cell(number, row) != 0 || memory != full {
            return Err(format!("field {number} has a row {row}"));
        }
    }
    Ok(())
}

/// Sets a row of a field.
pub fn set(memory: &mut Memory, field: usize, row: usize, value: u32) {
    memory.put(layout().place(field, row), value);
}
