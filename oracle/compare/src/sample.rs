//! The fixed sample of questions for the replayed list.

use std::collections::BTreeMap;
use std::collections::BTreeSet;

use crate::answer::{
    Answer, NOT_ALIGNED, NOT_CANONICAL, NOT_PHYSICAL, NO_SUCH_CHOICE, SIZES_DIFFER,
};
use crate::cases;
use crate::inputs;
use crate::inputs::widths::{low_end, WIDTHS};
use crate::kind::{self, Kind};
use crate::operation::Operation;
use generator::Generator;

/// Never changed, so that the list stays as it is.
const SEED: u64 = 1;
const DRAWS: u64 = 20_000;

/// Questions with the oracle's answers: the cases of the documents, the ends of indices and offsets,
/// and a choice in which each kind of answer has about the same share at each width, from boundaries
/// and drawn ones.
pub fn of(operation: &Operation) -> BTreeMap<Vec<u64>, Answer> {
    let mut chosen: BTreeMap<_, _> = cases::of(operation)
        .map(|case| case.args.to_vec())
        .chain(inputs::edges(operation))
        .map(|args| (args.clone(), oracle(operation, &args)))
        .collect();
    for (at, mut pools) in pools(operation) {
        let size = size(operation, at);
        let is_at = |args: &&Vec<u64>| width(operation, args) == at;
        let mut count = chosen.keys().filter(is_at).count();
        while count < size && !pools.is_empty() {
            pools.retain_mut(|pool| match pool.pop() {
                Some((args, answer)) if count < size => {
                    count += usize::from(chosen.insert(args, answer).is_none());
                    true
                }
                _ => false,
            });
        }
    }
    chosen
}

/// The functions on addresses, whose numbers are below this one, have more questions.
const BEHIND_ADDRESSES: u8 = 0x30;

fn of_ranges(operation: &Operation) -> bool {
    operation.kinds.iter().any(|kind| kind.item().is_some())
}

/// How many questions are wanted at this width, by the number of the other arguments; at numbers that
/// are none fewer.
fn size(operation: &Operation, width: Option<u64>) -> usize {
    let has_width = operation.kinds.first() == Some(&Kind::Width);
    let words = operation.words() - usize::from(has_width);
    let size = match (words, operation.number < BEHIND_ADDRESSES) {
        _ if of_ranges(operation) => 40,
        (0, _) => 1,
        (1, true) => 80,
        (_, true) => 250,
        (1, false) => 30,
        (_, false) => 60,
    };
    match width {
        None if has_width => size / 8,
        _ => size,
    }
}

type Pool = Vec<(Vec<u64>, Answer)>;

/// All questions that are chosen from, by their width: those on boundaries apart from drawn ones, each
/// kind of answer apart from the others and each page size or level as well, every pool in a drawn
/// order.
fn pools(operation: &Operation) -> BTreeMap<Option<u64>, Vec<Pool>> {
    let mut boundary = BTreeSet::new();
    let mut drawn = BTreeSet::new();
    let gather = |into: &mut BTreeSet<Vec<u64>>, args: &[u64]| {
        into.insert(args.to_vec());
        Ok::<(), ()>(())
    };
    let _ = inputs::each_boundary(operation, |args| gather(&mut boundary, args));
    let _ = inputs::each_drawn(operation, SEED, DRAWS, |args| gather(&mut drawn, args));

    let mut generator = Generator::new(SEED);
    let mut pools: BTreeMap<_, Vec<Pool>> = BTreeMap::new();
    for questions in [boundary, drawn] {
        let mut by_kind: BTreeMap<_, Pool> = BTreeMap::new();
        for args in questions {
            let answer = oracle(operation, &args);
            let width = width(operation, &args);
            let choice = choice(operation, &args, &answer);
            let key = (width, kind_of(width, &answer), choice);
            by_kind.entry(key).or_default().push((args, answer));
        }
        for ((width, ..), mut pool) in by_kind {
            generator.shuffle(&mut pool);
            pools.entry(width).or_default().push(pool);
        }
    }
    pools
}

/// The width of the question, if it has one. Numbers that are none are all of one kind.
fn width(operation: &Operation, args: &[u64]) -> Option<u64> {
    let width = kind::width(operation.kinds, args);
    width.filter(|width| WIDTHS.contains(width))
}

/// The status, and of an answer whether its first word is 0, 1, low or high; of a draw with an item
/// whether the range left starts or ends on it.
fn kind_of(width: Option<u64>, answer: &Answer) -> (u8, u8) {
    if let &[1, item, start, end] = answer.as_words() {
        let place = 2 * u8::from(start == item) + u8::from(end == item);
        return (answer.status, 4 + place);
    }
    let word = match answer.as_words().first() {
        None | Some(0) => 0,
        Some(1) => 1,
        Some(word) if *word < low_end(width.unwrap_or(WIDTHS[0])) => 2,
        Some(_) => 3,
    };
    (answer.status, word)
}

/// The first size or level of the question. Those that there are not are all of one kind, and so
/// are the ranges that one refusal keeps from being made.
fn choice(operation: &Operation, args: &[u64], answer: &Answer) -> Option<u64> {
    if answer.status == NO_SUCH_CHOICE {
        return None;
    }
    let of_argument = [NOT_CANONICAL, NOT_PHYSICAL, NOT_ALIGNED, SIZES_DIFFER];
    if of_ranges(operation) && of_argument.contains(&answer.status) {
        return None;
    }
    kind::split(operation.kinds, args).find_map(|(kind, words)| {
        let choices = kind.choices(words);
        choices.level.or(choices.size)
    })
}

/// The Rust's answer, or the model's where the Rust has no way to say the question or document 02
/// has changed the answer.
fn oracle(operation: &Operation, args: &[u64]) -> Answer {
    let model = operation.ask_model(args);
    let before = operation.ask_before(args);
    let rust = operation.ask_rust(args);
    if let Some(trouble) = rust.trouble {
        panic!("{} {args:x?}: {trouble}", operation.name);
    }
    let answer = rust.answer.unwrap_or(before);
    assert!(
        answer == before,
        "{} {args:x?}: Rust {answer}, model {before}",
        operation.name
    );
    model
}
