//! Tests of the library beside an independent model of document 01, and the parts of the benchmark.

pub mod arbitrary;
pub mod book;
pub mod broken;
pub mod compare;
pub mod coverage;
pub mod delaying;
pub mod explain;
pub mod layout;
pub mod library;
pub mod model;
pub mod params;
pub mod portion;
pub mod random;
pub mod readers;
pub mod reference;
pub mod report;
pub mod rounds;
pub mod schedule;
pub mod step;
pub mod tests;
pub mod why;
