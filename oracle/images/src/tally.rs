//! What the compared outputs held, counted.

use std::collections::BTreeMap;

/// Lines by their kind: run, stop reserved, stop outside, end, more, and each refusal.
#[derive(Clone, Default)]
pub struct Tally {
    pub cases: u64,
    lines: BTreeMap<String, u64>,
}

impl Tally {
    pub fn count(&mut self, output: &str) {
        self.cases += 1;
        for line in output.lines() {
            *self.lines.entry(kind(line)).or_default() += 1;
        }
    }

    pub fn add(&mut self, other: &Tally) {
        self.cases += other.cases;
        for (kind, count) in &other.lines {
            *self.lines.entry(kind.clone()).or_default() += count;
        }
    }

    /// One line: the cases, then each kind of line that came up.
    pub fn summary(&self, name: &str) -> String {
        let lines = self.lines.iter();
        let lines = lines.map(|(kind, count)| format!(", {kind} {count}"));
        format!(
            "{name:16}{:>8} cases{}",
            self.cases,
            lines.collect::<String>()
        )
    }
}

/// The words of a line that are no numbers of its own.
fn kind(line: &str) -> String {
    let words: Vec<_> = line.split(' ').collect();
    match words[..] {
        ["stop", _, _, reason] => format!("stop {reason}"),
        ["refused", number] => format!("refused {number}"),
        [first, ..] => first.to_string(),
        [] => String::new(),
    }
}
