//! bench [--desk PATH]
//! The library, plain C (gcc -O3, bench/plain.c) and the harness's model side by side in one process; the reachable count also in two
//! passes, which the library had before (crate bench_c). Contenders take turns round by round, and the best round of each counts.
//! Buffers are not cleared between rounds; where a row changes its domains, they are copied back before each round, and that is not
//! timed. After the table come the goals: each with its ratio, met or missed.

mod callers;
mod cycles;
mod goals;
mod leave;
mod portions;
mod processes;
mod race;
mod retire;
mod rows;
mod single;
mod table;
mod why;

use harness::params::Params;
use std::path::PathBuf;
use table::Table;

/// The least shape, the worked book's, a middling one, the greatest: each with T, Q and C at which paths switch and nodes are freed, and E = 0.
const SHAPES: [[u32; 6]; 4] = [[1, 1, 1, 3, 2, 1], [2, 1, 2, 3, 2, 1], [4, 2, 32, 5, 2, 8], [16, 8, 256, 5, 2, 24]];

fn main() {
    let mut words = std::env::args().skip(1);
    let desk = match (words.next().as_deref(), words.next()) {
        (Some("--desk"), Some(path)) => Some(PathBuf::from(path)),
        (None, None) => None,
        _ => {
            eprintln!("bench: say nothing, or --desk PATH");
            std::process::exit(2);
        }
    };
    let mut table = Table::default();
    table.head();
    let shapes = SHAPES.map(|numbers| Params::of(&numbers));
    for all in [rows::all, why::all, retire::all, portions::all, leave::all, cycles::all] {
        shapes.into_iter().for_each(|params| all(params, &mut table));
    }
    if let Some(desk) = desk {
        shapes.into_iter().for_each(|params| processes::all(params, &mut table, &desk, "target/plain/desk".as_ref()));
    }
    table.verdicts();
}
