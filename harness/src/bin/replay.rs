//! replay < BOOK: what the model prints for a step book.

use std::io::{Read, Write};

fn main() -> std::io::Result<()> {
    let mut book = Vec::new();
    std::io::stdin().read_to_end(&mut book)?;
    std::io::stdout().write_all(harness::book::print(&book).as_bytes())
}
