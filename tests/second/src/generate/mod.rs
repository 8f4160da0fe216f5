//! Random cases, a line each, and a tally of what occurs in them.

pub mod calls;
pub mod damage;
pub mod hosts;
pub mod lines;
pub mod lists;
pub mod random;
pub mod tables;
pub mod tally;
pub mod text;
