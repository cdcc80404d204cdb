//! One question to the Rust, the port and the model.

use std::fmt;

use crate::answer::Answer;
use crate::cases::{self, Case};
use crate::counts::Counts;
use crate::inputs;
use crate::kind;
use crate::operation::Operation;
use crate::port;
use crate::rust::Asked;

/// A question on which the sides are not all of one answer.
pub struct Difference {
    name: &'static str,
    args: Vec<u64>,
    rust: String,
    port: String,
    model: String,
}

impl fmt::Display for Difference {
    fn fmt(&self, f: &mut fmt::Formatter) -> fmt::Result {
        write!(f, "difference: {}", self.name)?;
        self.args.iter().try_for_each(|arg| write!(f, " {arg:x}"))?;
        write!(f, "\n  Rust   {}", self.rust)?;
        write!(f, "\n  port   {}", self.port)?;
        write!(f, "\n  model  {}", self.model)
    }
}

/// Compares on all inputs: the cases of the documents, the boundaries, and as many drawn as wanted.
pub fn compare(operation: &Operation, seed: u64, draws: u64) -> Result<Counts, Difference> {
    let mut counts = Counts::none();
    for case in cases::of(operation) {
        ask_all(operation, case.args, Some(case))?;
    }
    inputs::each_boundary(operation, |args| {
        counts.boundary += 1;
        compare_one(operation, args, &mut counts)
    })?;
    inputs::each_drawn(operation, seed, draws, |args| {
        counts.drawn += 1;
        compare_one(operation, args, &mut counts)
    })?;
    Ok(counts)
}

fn compare_one(operation: &Operation, args: &[u64], counts: &mut Counts) -> Result<(), Difference> {
    let (answer, rust) = ask_all(operation, args, None)?;
    counts.count(answer.status);
    counts.at_57 += u64::from(kind::width(operation.kinds, args) == Some(57));
    counts.without_rust += u64::from(rust.is_none());
    counts.otherwise += u64::from(rust.is_some_and(|rust| rust != answer));
    Ok(())
}

/// The answer of port and model, and the Rust's, if it has one: the same; where document 02 has changed
/// the answer, the Rust's is that of document 01 alone. In a case of the documents port and model must
/// give the answer written there.
fn ask_all(
    operation: &Operation,
    args: &[u64],
    case: Option<&Case>,
) -> Result<(Answer, Option<Answer>), Difference> {
    let model = operation.ask_model(args);
    let before = operation.ask_before(args);
    let rust = operation.ask_rust(args);
    let port = port::ask(operation.port, args, model.as_words().len());

    let rust_agrees = rust.trouble.is_none() && rust.answer.is_none_or(|a| a == before);
    let port_agrees = port.as_ref().is_ok_and(|&a| a == model);
    let model_agrees = case.is_none_or(|case| case.answer() == model);
    if rust_agrees && port_agrees && model_agrees {
        return Ok((model, rust.answer));
    }
    Err(Difference {
        name: operation.name,
        args: args.to_vec(),
        rust: describe(&rust),
        port: port.map_or_else(|trouble| trouble, |answer| answer.to_string()),
        model: match case {
            Some(case) => format!("{model}; in case {} {}", case.name, case.answer()),
            None if before != model => format!("{model}; of the Rust {before}"),
            None => model.to_string(),
        },
    })
}

fn describe(asked: &Asked) -> String {
    let answer = asked.answer.map(|answer| answer.to_string());
    let answer = answer.unwrap_or("no answer".into());
    match &asked.trouble {
        Some(trouble) => format!("{answer}; {trouble}"),
        None => answer,
    }
}
