//! runs_reference: prints what the program `runs` should print for standard input.

use std::io::{self, Read, Write};

use images::reference::runs;

fn main() -> io::Result<()> {
    let mut input = Vec::new();
    io::stdin().read_to_end(&mut input)?;
    io::stdout().write_all(runs::output(&input).as_bytes())
}
