//! How often each kind, reply, code and refusal occurs.

use crate::bench::*;
use crate::record::{FINISHED, REFUSED};
use std::collections::BTreeMap;

/// Counts by group and name, in order.
#[derive(Default)]
pub struct Tally {
    counts: BTreeMap<(&'static str, String), u64>,
}

impl Tally {
    pub fn add(&mut self, group: &'static str, name: String) {
        *self.counts.entry((group, name)).or_default() += 1;
    }

    /// One record: the bench before its last bytes, those bytes and the reply.
    pub fn record(&mut self, before: &Bench, bytes: &[u8], reply: [u8; 4]) {
        let carried = &before.carried[..usize::from(before.count)];
        let kind = *carried.first().unwrap_or(&bytes[0]);
        let code = i16::from_le_bytes([reply[2], reply[3]]);
        self.add("1 records", "all".to_string());
        self.add("2 record kind", kind_name(kind));
        self.add("3 reply kind", reply[0].to_string());
        match reply[0] {
            REFUSED => self.add("5 refusal", code.to_string()),
            FINISHED => self.add(
                "4 answer",
                format!("{} {}", label(before, kind), code_name(kind, code)),
            ),
            ask => self.add("4 answer", format!("{} ask {ask}", label(before, kind))),
        }
    }

    /// One line for each group, with its names and counts.
    pub fn lines(&self) -> Vec<String> {
        let mut lines: Vec<String> = Vec::new();
        let mut last = "";
        for ((group, name), count) in &self.counts {
            if *group != last {
                lines.push(format!("{}:", &group[2..]));
                last = group;
            }
            lines.push(format!("  {name}: {count}"));
        }
        lines
    }
}

fn kind_name(kind: u8) -> String {
    match kind {
        1..=13 => format!("{kind:02}"),
        _ => "other".to_string(),
    }
}

/// The kind; for a result also the callback that was open.
fn label(before: &Bench, kind: u8) -> String {
    let callback = match (kind, before.callback) {
        (13, SUSPEND_CALLBACK) => " suspend",
        (13, RESUME_CALLBACK) if before.asked == before.target => " resume target",
        (13, RESUME_CALLBACK) => " resume other",
        (13, IDLE_CALLBACK) => " idle",
        _ => "",
    };
    format!("{kind:02}{callback}")
}

/// The code; the many values of results are put together.
fn code_name(kind: u8, code: i16) -> String {
    match code {
        0 | 1 | -5 | -11 | -13 | -16 | -22 | -75 | -115 => format!("finished {code}"),
        _ if kind == 13 => "finished other".to_string(),
        _ => format!("finished {code} (not expected)"),
    }
}
