//! The questions that are asked: boundaries crossed with each other, and drawn ones. Where the answer
//! depends on the width, those around the boundaries of each width are asked at both.

pub mod boundary;
pub mod drawn;
pub mod ranges;
pub mod sizes;
pub mod widths;

use crate::kind::Kind;
use crate::operation::Operation;
use drawn::Source;
use generator::Generator;
use widths::{NO_WIDTHS, WIDTHS};

/// Up to so many questions all combinations of boundary values are asked; of more, as many drawn
/// from them.
const MOST_CROSSED: usize = 1 << 17;

/// So many boundary questions are asked at numbers that are no width.
const AT_NO_WIDTH: usize = 1 << 10;

/// The widths around whose boundaries an operation is asked; one that takes none, around those of 48
/// bits.
fn widths(operation: &Operation) -> &'static [u64] {
    match operation.kinds {
        [Kind::Width, ..] => &WIDTHS,
        _ => &WIDTHS[..1],
    }
}

/// The values that are crossed, of each argument.
type Values = Vec<Vec<Vec<u64>>>;

fn values(kinds: &[Kind], width: u64) -> Values {
    kinds.iter().map(|&k| boundary::of(k, width)).collect()
}

/// Hands each question on boundaries to `ask`, until it gives an error.
pub fn each_boundary<E>(
    operation: &Operation,
    mut ask: impl FnMut(&[u64]) -> Result<(), E>,
) -> Result<(), E> {
    let number = operation.number;
    let &[Kind::Width, ref kinds @ ..] = operation.kinds else {
        let (kinds, width) = (operation.kinds, WIDTHS[0]);
        return each_crossed(number, kinds, width, &values(kinds, width), ask);
    };
    let mut tried = WIDTHS.map(|width| values(kinds, width)).to_vec();
    tried.dedup();
    for values in &tried {
        for width in WIDTHS {
            let ask = |args: &[u64]| ask(&[&[width], args].concat());
            each_crossed(number, kinds, width, values, ask)?;
        }
    }
    let at_no_width = values(operation.kinds, WIDTHS[0]);
    each_picked(number, &at_no_width, AT_NO_WIDTH, ask)
}

fn each_crossed<E>(
    number: u8,
    kinds: &[Kind],
    width: u64,
    values: &Values,
    mut ask: impl FnMut(&[u64]) -> Result<(), E>,
) -> Result<(), E> {
    if let &[range, Kind::Draws] = kinds {
        // What a draw passes over depends on the range.
        return values[0].iter().try_for_each(|words| {
            let mut draws = ranges::draws(range, width, words).into_iter();
            draws.try_for_each(|n| ask(&[&words[..], &[n]].concat()))
        });
    }
    let all = values
        .iter()
        .try_fold(1usize, |product, v| product.checked_mul(v.len()));
    match all {
        Some(all) if all <= MOST_CROSSED => (0..all).try_for_each(|i| ask(&nth(values, i))),
        _ => each_picked(number, values, MOST_CROSSED, ask),
    }
}

/// So many questions of one value for each argument.
fn each_picked<E>(
    number: u8,
    values: &Values,
    questions: usize,
    mut ask: impl FnMut(&[u64]) -> Result<(), E>,
) -> Result<(), E> {
    let mut generator = Generator::new(number.into());
    let mut one_of_each = || -> Vec<u64> {
        let picks = values.iter().flat_map(|v| generator.pick(v).clone());
        picks.collect()
    };
    (0..questions).try_for_each(|_| ask(&one_of_each()))
}

/// The questions in which every argument is at the end of indices or offsets, all combinations.
pub fn edges(operation: &Operation) -> Vec<Vec<u64>> {
    let kinds = operation.kinds;
    let at_width = |&width: &u64| {
        let edges = kinds.iter().map(|&k| boundary::edges(k, width));
        let values: Values = edges.collect();
        let all: usize = values.iter().map(Vec::len).product();
        (0..all).map(move |i| nth(&values, i))
    };
    match kinds {
        [] => Vec::new(),
        _ => widths(operation).iter().flat_map(at_width).collect(),
    }
}

/// Combination i, the last argument changing fastest.
fn nth(values: &Values, mut i: usize) -> Vec<u64> {
    let mut chosen: Vec<&[u64]> = vec![&[]; values.len()];
    for (argument, values) in chosen.iter_mut().zip(values).rev() {
        *argument = &values[i % values.len()];
        i /= values.len();
    }
    chosen.concat()
}

/// Hands each of the drawn questions to `ask`, until it gives an error: so many, and where the answer
/// depends on the width so many at each. The same seed gives the same questions, whatever other
/// operations there are. One without arguments has no question here.
pub fn each_drawn<E>(
    operation: &Operation,
    seed: u64,
    draws: u64,
    mut ask: impl FnMut(&[u64]) -> Result<(), E>,
) -> Result<(), E> {
    if operation.kinds.is_empty() {
        return Ok(());
    }
    let mut widths = widths(operation).iter();
    widths.try_for_each(|&width| each_drawn_around(width, operation, seed, draws, &mut ask))
}

/// Those drawn around the boundaries of a width. Where the answer depends on it, all are asked at that
/// width, and some at others as well.
pub fn each_drawn_around<E>(
    width: u64,
    operation: &Operation,
    seed: u64,
    draws: u64,
    mut ask: impl FnMut(&[u64]) -> Result<(), E>,
) -> Result<(), E> {
    let generator = Generator::new(seed ^ u64::from(operation.number) << 56);
    let mut source = Source { width, generator };
    let (mut args, mut question) = (Vec::new(), Vec::new());
    let (has_width, kinds) = match operation.kinds {
        [Kind::Width, kinds @ ..] => (true, kinds),
        kinds => (false, kinds),
    };
    (0..draws).try_for_each(|i| {
        args.clear();
        kinds.iter().for_each(|&k| source.push(k, &mut args));
        if !has_width {
            return ask(&args);
        }
        widths_of_draw(i, width).try_for_each(|width| {
            question.clear();
            question.push(width);
            question.extend(&args);
            ask(&question)
        })
    })
}

/// The widths at which this draw is asked: its own, each eighth time the other one too, and each
/// sixteenth time a number that is none.
fn widths_of_draw(i: u64, width: u64) -> impl Iterator<Item = u64> {
    let more = match i % 16 {
        0 | 8 => WIDTHS.into_iter().find(|&other| other != width),
        4 => Some(NO_WIDTHS[(i / 16) as usize % NO_WIDTHS.len()]),
        _ => None,
    };
    [Some(width), more].into_iter().flatten()
}
