//! How many questions were compared and what the answers were, as a table.

use crate::answer::{ANSWERED, NONE, NO_SUCH_CHOICE};

/// The width of the names of functions.
pub const NAME: usize = 48;

#[derive(Clone)]
pub struct Counts {
    pub boundary: u64,
    pub drawn: u64,
    /// Asked at 57 bits.
    pub at_57: u64,
    /// Compared with the model alone, since the Rust has no way to say the question.
    pub without_rust: u64,
    /// The Rust answers otherwise, as it must where document 02 has changed the answer.
    pub otherwise: u64,
    by_status: [u64; 256],
}

impl Counts {
    pub fn none() -> Counts {
        Counts {
            boundary: 0,
            drawn: 0,
            at_57: 0,
            without_rust: 0,
            otherwise: 0,
            by_status: [0; 256],
        }
    }

    pub fn count(&mut self, status: u8) {
        self.by_status[usize::from(status)] += 1;
    }

    fn add(&mut self, other: &Counts) {
        self.boundary += other.boundary;
        self.drawn += other.drawn;
        self.at_57 += other.at_57;
        self.without_rust += other.without_rust;
        self.otherwise += other.otherwise;
        for (sum, more) in self.by_status.iter_mut().zip(other.by_status) {
            *sum += more;
        }
    }
}

/// One line for each operation and a line for all. Only refusals that occur have a column.
pub fn print_table(rows: &[(&str, Counts)]) {
    let mut total = Counts::none();
    for (_, counts) in rows {
        total.add(counts);
    }
    let refusals: Vec<u8> = (1..NONE)
        .filter(|&status| total.by_status[usize::from(status)] > 0)
        .collect();

    print!("{:NAME$}", "function");
    for title in [
        "boundary",
        "drawn",
        "57 bits",
        "no Rust",
        "otherwise",
        "answered",
        "none",
    ] {
        print!("{title:>12}");
    }
    for refusal in &refusals {
        let title = match *refusal {
            NO_SUCH_CHOICE => "no choice".to_string(),
            number => format!("refused {number}"),
        };
        print!("{title:>12}");
    }
    println!();
    for (name, counts) in rows {
        print_row(name, counts, &refusals);
    }
    print_row("total", &total, &refusals);
}

fn print_row(name: &str, counts: &Counts, refusals: &[u8]) {
    print!("{name:NAME$}");
    for count in [
        counts.boundary,
        counts.drawn,
        counts.at_57,
        counts.without_rust,
        counts.otherwise,
    ] {
        print!("{count:>12}");
    }
    for status in [ANSWERED, NONE].iter().chain(refusals) {
        print!("{:>12}", counts.by_status[usize::from(*status)]);
    }
    println!();
}
