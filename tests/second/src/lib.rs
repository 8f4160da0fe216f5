//! The bench keeper of document 01 in ordinary Rust, for comparison.
//!
//! A [`Bench`] is loaded from a part table and fed pieces of a log; [`write()`]
//! makes a part table; [`save`] and [`restore`] keep a bench as bytes; [`host`]
//! has the calls of a C host. The names are the kernel's: a part is a *device*,
//! the use count is the *usage count*, the error is the *runtime error*.

mod bench;
mod count;
mod feed;
pub mod generate;
pub mod host;
mod question;
mod record;
mod saved;
mod set;
mod sound;
mod table;
mod wake;
mod write;

#[cfg(test)]
mod tests;

pub use bench::*;
pub use count::counted;
pub use feed::MAX_PIECE;
pub use record::{FINISHED, REFUSED};
pub use saved::{form_of, restore, save, FORM};
pub use set::Set;
pub use table::{load, Refusal};
pub use write::write;
