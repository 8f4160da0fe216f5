//! Document 01, demand 3: which records of a log are counted.

use crate::bench::{EINPROGRESS, EOVERFLOW};
use crate::record::REFUSED;

/// The counted gets and the counted puts of a device: the records of a log of whole records that
/// were neither refused nor finished with -75 or -115.
pub fn counted(log: &[u8], replies: &[u8], device: u8) -> (usize, usize) {
    let mut kinds = Vec::new();
    for (record, reply) in log.chunks_exact(4).zip(replies.chunks_exact(4)) {
        let code = i16::from_le_bytes([reply[2], reply[3]]);
        let without_effect = reply[0] == REFUSED || [-EOVERFLOW, -EINPROGRESS].contains(&code);
        if record[1] == device && !without_effect {
            kinds.push(record[0]);
        }
    }
    let among = |wanted: [u8; 2]| kinds.iter().filter(|kind| wanted.contains(kind)).count();
    (among([3, 4]), among([5, 6]))
}
