//! Feeding pieces of a log.

use crate::bench::*;
use crate::record::Keeper;

/// The longest piece.
pub const MAX_PIECE: usize = 4_096;

impl Bench {
    /// Document 01: a piece. Answers how many replies were written; a refused
    /// piece (21, 22, 23) leaves the bench and the reply buffer untouched.
    pub fn feed(&mut self, piece: &[u8], replies: &mut [u8]) -> Result<usize, u8> {
        let sets = self.sound_sets().ok_or(21)?;
        if piece.len() > MAX_PIECE {
            return Err(22);
        }
        let whole = (usize::from(self.count) + piece.len()) / 4;
        if replies.len() < 4 * whole {
            return Err(23);
        }
        let (first, piece) = self.complete(piece);
        let (records, rest) = piece.as_chunks();
        self.carry(rest);
        let (replies, _) = replies.as_chunks_mut();
        let (head, tail) = replies.split_at_mut(first.iter().len());
        let mut keeper = Keeper::new(self, sets);
        keeper.records(first.as_slice(), head);
        keeper.records(records, tail);
        Ok(whole)
    }

    /// Takes the carried bytes, if the first bytes of a piece complete them to
    /// a record: the record and the bytes after it.
    fn complete<'p>(&mut self, piece: &'p [u8]) -> (Option<[u8; 4]>, &'p [u8]) {
        let count = usize::from(self.count);
        match piece.split_at_checked(4 - count) {
            Some((end, after)) if count > 0 => {
                let mut record = [0; 4];
                record[..count].copy_from_slice(&self.carried[..count]);
                record[count..].copy_from_slice(end);
                self.carried = [0; 3];
                self.count = 0;
                (Some(record), after)
            }
            _ => (None, piece),
        }
    }

    /// Carries bytes that make no whole record, behind those carried.
    fn carry(&mut self, rest: &[u8]) {
        let unused = &mut self.carried[usize::from(self.count)..];
        unused[..rest.len()].copy_from_slice(rest);
        self.count += rest.len() as u8;
    }
}
