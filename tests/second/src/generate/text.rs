//! Benches and bytes as text, for lines of cases.

use crate::bench::*;

/// Rows shown of each column. Later rows are zero.
pub const SHOWN: usize = 12;

/// Bytes in lowercase hex, `-` for none.
pub fn hex(bytes: &[u8]) -> String {
    if bytes.is_empty() {
        return "-".to_string();
    }
    bytes.iter().map(|byte| format!("{byte:02x}")).collect()
}

/// The numbers of a column's first rows, with commas.
fn column<T: ToString>(values: &[T]) -> String {
    let words: Vec<String> = values.iter().take(SHOWN).map(T::to_string).collect();
    words.join(",")
}

/// A bench as `key=value` words.
pub fn state(bench: &Bench) -> String {
    [
        format!("n={}", bench.n),
        format!("m={}", bench.m),
        format!("parent={}", column(&bench.parent)),
        format!("ignore={}", column(&bench.ignore)),
        format!("status={}", column(&bench.status)),
        format!("holds={}", column(&bench.holds)),
        format!("depth={}", column(&bench.depth)),
        format!("error={}", column(&bench.error)),
        format!("children={}", column(&bench.children)),
        format!("linked={}", column(&bench.linked)),
        format!("consumer={}", column(&bench.consumer)),
        format!("supplier={}", column(&bench.supplier)),
        format!("flags={}", column(&bench.flags)),
        format!("callback={}", bench.callback),
        format!("asked={}", bench.asked),
        format!("target={}", bench.target),
        format!("carried={}", column(&bench.carried)),
        format!("count={}", bench.count),
    ]
    .join(" ")
}
