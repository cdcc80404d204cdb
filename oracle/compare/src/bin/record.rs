//! record: prints the replayed list, the oracle's answers to a fixed sample of questions.
//!
//! A line for each: `OP ARG.. STATUS VALUE..`, in lower-case hexadecimal without leading zeros.
//! STATUS is 0 answered, ff none, fd no such choice, else the number of the refusal; only an answer
//! has VALUEs.

use std::io::{self, BufWriter, Write};

use compare::{operations, rust, sample};

fn main() -> io::Result<()> {
    rust::silence_caught_panics();
    let mut list = BufWriter::new(io::stdout().lock());
    for operation in operations::all() {
        for (args, answer) in sample::of(operation) {
            write!(list, "{:x}", operation.number)?;
            for arg in args {
                write!(list, " {arg:x}")?;
            }
            write!(list, " {:x}", answer.status)?;
            for word in answer.as_words() {
                write!(list, " {word:x}")?;
            }
            writeln!(list)?;
        }
    }
    list.flush()
}
