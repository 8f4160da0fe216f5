//! Saving a bench, and restoring it.

use crate::bench::*;
use std::slice::from_mut;

/// Document 02, request Four: the mark and the version that is saved.
const HEADER: [u8; 5] = [b'T', b'W', b'S', 1, 0];

/// The length of a saved state of that version.
pub const FORM: usize = 4_753;

/// A field: where it starts in the form, how many bytes a row has there (one or
/// four), and its rows in a bench.
type Field = (usize, usize, fn(&mut Bench) -> Rows);

/// docs/FORMATS.md, "Saved state, version 1", line by line.
const FIELDS: [Field; 18] = [
    (5, 1, |bench| Rows::Bytes(&mut bench.parent)),
    (261, 1, |bench| Rows::Bytes(&mut bench.ignore)),
    (517, 1, |bench| Rows::Bytes(&mut bench.status)),
    (773, 1, |bench| Rows::Bytes(&mut bench.depth)),
    (1029, 1, |bench| Rows::Words(&mut bench.children)),
    (1285, 1, |bench| Rows::Bytes(&mut bench.consumer)),
    (1413, 1, |bench| Rows::Bytes(&mut bench.supplier)),
    (1541, 1, |bench| Rows::Bytes(&mut bench.flags)),
    (1669, 1, |bench| Rows::Bytes(from_mut(&mut bench.n))),
    (1670, 1, |bench| Rows::Bytes(from_mut(&mut bench.callback))),
    (1671, 1, |bench| Rows::Bytes(from_mut(&mut bench.asked))),
    (1672, 1, |bench| Rows::Bytes(from_mut(&mut bench.target))),
    (1673, 1, |bench| Rows::Bytes(from_mut(&mut bench.count))),
    (1674, 1, |bench| Rows::Bytes(&mut bench.carried)),
    (1677, 4, |bench| Rows::Words(&mut bench.holds)),
    (2701, 4, |bench| Rows::Words(&mut bench.error)),
    (3725, 4, |bench| Rows::Words(&mut bench.linked)),
    (4749, 4, |bench| Rows::Bytes(from_mut(&mut bench.m))),
];

/// Document 02, request Four: the one saved form of a sound bench; 21 where it
/// isn't sound.
pub fn save(bench: &Bench) -> Result<Vec<u8>, u8> {
    if !bench.sound() {
        return Err(21);
    }
    Ok(form_of(bench))
}

/// The fields of any bench in the layout of a form. Of a child count the low
/// byte is kept, which is all of it in a sound bench.
pub fn form_of(bench: &Bench) -> Vec<u8> {
    let mut form = vec![0; FORM];
    form[..HEADER.len()].copy_from_slice(&HEADER);
    let mut bench = bench.clone();
    for (at, width, rows) in FIELDS {
        let (rows, place) = (rows(&mut bench), &mut form[at..]);
        match width {
            1 => rows.put::<1>(place),
            _ => rows.put::<4>(place),
        }
    }
    form
}

/// Document 02, request Four: the bench of a saved form, or 1, 2, 3, 5 or 21,
/// tested in this order. The bench left by a refusal is the empty one.
pub fn restore(form: &[u8]) -> Result<Bench, u8> {
    let header = form.first_chunk::<5>().ok_or(1)?;
    if !header.starts_with(b"TWS") {
        return Err(2);
    }
    if u16::from_le_bytes([header[3], header[4]]) != 1 {
        return Err(3);
    }
    if form.len() != FORM {
        return Err(5);
    }
    bench_in(form).filter(Bench::sound).ok_or(21)
}

/// The bench in the fields of a form; none where a value is beyond its field,
/// and so beyond every limit.
fn bench_in(form: &[u8]) -> Option<Bench> {
    let mut bench = Bench::empty();
    for (at, width, rows) in FIELDS {
        let (rows, place) = (rows(&mut bench), &form[at..]);
        let fit = match width {
            1 => rows.take::<1>(place),
            _ => rows.take::<4>(place),
        };
        if !fit {
            return None;
        }
    }
    Some(bench)
}

/// The rows of a field in a bench.
enum Rows<'a> {
    Bytes(&'a mut [u8]),
    Words(&'a mut [u16]),
}

impl Rows<'_> {
    /// Puts the rows in so many bytes each.
    fn put<const WIDTH: usize>(self, place: &mut [u8]) {
        match self {
            Rows::Bytes(rows) => put::<_, WIDTH>(rows, place),
            Rows::Words(rows) => put::<_, WIDTH>(rows, place),
        }
    }

    /// Takes the rows from so many bytes each. Does every value fit?
    fn take<const WIDTH: usize>(self, place: &[u8]) -> bool {
        match self {
            Rows::Bytes(rows) => take::<_, WIDTH>(rows, place),
            Rows::Words(rows) => take::<_, WIDTH>(rows, place),
        }
    }
}

fn put<T: Copy + Into<u32>, const WIDTH: usize>(rows: &[T], place: &mut [u8]) {
    let (places, _) = place.as_chunks_mut::<WIDTH>();
    for (bytes, &row) in places.iter_mut().zip(rows) {
        bytes.copy_from_slice(&row.into().to_le_bytes()[..WIDTH]);
    }
}

/// Without an early end several rows are looked at at once.
fn take<T: TryFrom<u32>, const WIDTH: usize>(rows: &mut [T], place: &[u8]) -> bool {
    let (places, _) = place.as_chunks::<WIDTH>();
    let mut fit = true;
    for (row, bytes) in rows.iter_mut().zip(places) {
        let mut number = [0; 4];
        number[..WIDTH].copy_from_slice(bytes);
        match u32::from_le_bytes(number).try_into() {
            Ok(value) => *row = value,
            Err(_) => fit = false,
        }
    }
    fit
}
