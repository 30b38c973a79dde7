//! The tests, by what they try.

pub mod books;
mod case;
pub mod edges;
pub mod examples;
pub mod late;
pub mod leaving;
mod made;
pub mod make;
pub mod malformed;
pub mod mistakes;
mod objections;
pub mod panel;
pub mod portion_runs;
pub mod portions;
mod program;
pub mod readers;
pub mod round_orders;
pub mod round_runs;
pub mod rounds;
pub mod runs;
pub mod schedules;
pub mod why;
pub mod why_lines;
