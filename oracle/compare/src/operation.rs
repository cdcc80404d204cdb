//! An operation: one row of the comparison, with its three sides.

use crate::answer::{Answer, DRAW_MEETS_GAP, OVERFLOW};
use crate::kind::Kind;
use crate::model;
use crate::port::Function;
use crate::rust::{self, Asked, Panic, Way};

pub struct Operation {
    /// The port's function without the prefix `wuohtan_`.
    pub name: &'static str,
    /// The number in the replayed list.
    pub number: u8,
    pub kinds: &'static [Kind],
    pub port: Function,
    /// The ways in which the Rust gives this one answer. All are asked; the first is timed.
    pub ways: &'static [Way],
    /// The refusal that a panic of the Rust stands for.
    pub panics: fn(Panic) -> u8,
    /// The first way behind the port's convention, for the benchmark. It does not catch panics.
    pub timed: Function,
    /// What document 01 alone answers, where document 02 has changed answers.
    pub before: Option<Before>,
    pub model: Model,
}

pub type Model = fn(&[u64]) -> Answer;

/// Document 01 alone where document 02 has changed answers, and so the Rust: at 48 bits.
pub struct Before {
    /// Whether these are an answer of before, the second, and today's, the third, of arguments that no call
    /// refuses.
    pub agrees: fn(&[u64], Answer, Answer) -> bool,
    pub model: Model,
}

/// Request One answers the draws that were refused 10 of ranges in one half, and no others.
pub fn gap_was_met(args: &[u64], before: Answer, today: Answer) -> bool {
    let [is_start_low, is_end_low] = ends_are_low(args);
    let changes = is_start_low == is_end_low && before == Answer::refused(DRAW_MEETS_GAP);
    (before != today) == changes
}

/// How many numbers are in the gap.
const GAP: u64 = ((1 << 64) - (1u128 << 48)) as u64;

/// Before request Three `len` counted the pages too for which the gap has room.
pub fn pages_of_gap_were_counted(args: &[u64], before: Answer, today: Answer) -> bool {
    before == with_gap(args, today, GAP / args[2])
}

/// Before request Three `size` counted the gap too, and refused 2^64.
pub fn gap_was_counted(args: &[u64], before: Answer, today: Answer) -> bool {
    before == with_gap(args, today, GAP)
}

/// The answer, with so many more of a range over the gap.
fn with_gap(args: &[u64], answer: Answer, more: u64) -> Answer {
    match (ends_are_low(args), answer.as_words()) {
        ([true, false], [count]) => match count.checked_add(more) {
            Some(sum) => Answer::words(&[sum]),
            None => Answer::refused(OVERFLOW),
        },
        _ => answer,
    }
}

/// Of a range of pages behind its width, whether start and end are low.
fn ends_are_low(args: &[u64]) -> [bool; 2] {
    [args[1], args[3]].map(|address| address < 1 << 47)
}

impl Operation {
    /// How many numbers say a question.
    pub fn words(&self) -> usize {
        self.kinds.iter().map(|kind| kind.words()).sum()
    }

    pub fn ask_rust(&self, args: &[u64]) -> Asked {
        rust::ask(self.kinds, self.ways, self.panics, args)
    }

    pub fn ask_model(&self, args: &[u64]) -> Answer {
        match model::refused_argument(self.kinds, args) {
            Some(number) => Answer::refused(number),
            None => (self.model)(args),
        }
    }

    /// What the Rust is to answer: as the model, but where document 02 has changed that. At 57 bits it is
    /// not asked.
    pub fn ask_before(&self, args: &[u64]) -> Answer {
        let model = self.ask_model(args);
        let is_asked = || {
            rust::can_say(self.kinds, args) && model::refused_argument(self.kinds, args).is_none()
        };
        match &self.before {
            Some(before) if is_asked() => {
                let answer = (before.model)(args);
                assert!(
                    (before.agrees)(args, answer, model),
                    "{} {args:x?}: before {answer}, today {model}",
                    self.name
                );
                answer
            }
            _ => model,
        }
    }
}

/// A row. Each argument has a name for each of its numbers, and its kind. The ways of the Rust take
/// the arguments in their own types, made by the Rust's own constructors, but neither a width nor an
/// index of level 5; the model takes the plain numbers. `sizes` names the number that chooses the type
/// `S` in the ways, and the sizes at which the Rust has them. `before` names what document 02 has
/// changed, and the model of document 01 alone.
#[macro_export]
macro_rules! operation {
    (
        $number:literal $name:ident $params:tt
        port $port:ident,
        sizes $sizes:tt,
        rust [$first:expr $(, $other:expr)*],
        $(panics $panics:path,)?
        $(before $agrees:ident $before:path,)?
        model $model:path
    ) => {
        $crate::operation::Operation {
            name: stringify!($name),
            number: $number,
            kinds: $crate::kinds!($params),
            port: $crate::port!($port, $params),
            ways: &[
                |args| $crate::way!($first, args, $params, $sizes)
                $(, |args| $crate::way!($other, args, $params, $sizes))*
            ],
            panics: $crate::panics!($($panics)?),
            timed: $crate::timed!($first, $params, $sizes),
            before: $crate::before!($params $($agrees $before)?),
            model: |args| $crate::model!($model, args, $params),
        }
    };
    ($number:literal $name:ident $params:tt port $port:ident, rust $($rest:tt)*) => {
        $crate::operation! { $number $name $params port $port, sizes (), rust $($rest)* }
    };
}

#[macro_export]
macro_rules! kinds {
    (($($($word:ident)+: $kind:ident),*)) => { &[$($crate::kind::Kind::$kind),*] };
}

/// The function, by the number of its arguments.
#[macro_export]
macro_rules! function {
    ($function:path, ($($($word:ident)+: $kind:ident),*)) => {
        $crate::port::Of::<{ <[&str]>::len(&[$($(stringify!($word)),+),*]) }>::function($function)
    };
}

/// The port's function of this name.
#[macro_export]
macro_rules! port {
    // C takes a displacement as an int32_t.
    (
        $port:ident,
        ($width:ident: Width, $addr:ident: Virtual, $displacement:ident: Displacement)
    ) => {{
        extern "C" {
            fn $port($width: u64, $addr: u64, $displacement: i32, out: *mut u64, len: usize) -> u8;
        }
        unsafe extern "C" fn port(
            $width: u64,
            $addr: u64,
            $displacement: u64,
            out: *mut u64,
            len: usize,
        ) -> u8 {
            $port($width, $addr, $displacement as i32, out, len)
        }
        $crate::function!(port, ($width: Width, $addr: Virtual, $displacement: Displacement))
    }};
    ($port:ident, ($($($word:ident)+: $kind:ident),*)) => {{
        extern "C" {
            fn $port($($($word: u64,)+)* out: *mut u64, len: usize) -> u8;
        }
        $crate::function!($port, ($($($word)+: $kind),*))
    }};
}

#[macro_export]
macro_rules! panics {
    () => {
        $crate::rust::refusal
    };
    ($panics:path) => {
        $panics
    };
}

/// One way of the Rust, asked with the numbers in `args`.
#[macro_export]
macro_rules! way {
    ($way:expr, $args:expr, ($($($word:ident)+: $kind:ident),*), $sizes:tt) => {{
        let [$($($word),+),*] = *$args else { unreachable!("as many as kinds have") };
        $crate::at_size!(reply(), $way, ($($($word)+: $kind),*), $sizes)
    }};
}

/// One way at the size that the question has, if it has one. The answer goes by `reply()` or
/// `give(out)`.
#[macro_export]
macro_rules! at_size {
    ($by:ident $out:tt, $way:expr, $params:tt, ()) => {
        $crate::asked!($by $out, $way, $params)
    };
    ($by:ident $out:tt, $way:expr, $params:tt, ($size:ident: $($S:ident)+)) => {
        match $size {
            $(<$S as x86_64::structures::paging::PageSize>::SIZE => {
                type S = $S;
                $crate::asked!($by $out, $way, $params)
            })+
            _ => None,
        }
    };
}

/// One way, its arguments made in their order.
#[macro_export]
macro_rules! asked {
    // The Rust has one width and no level 5.
    ($by:ident $out:tt, $way:expr, ($width:ident: Width, $($rest:tt)+)) => {{
        let _ = $width;
        $crate::asked!($by $out, $way, ($($rest)+))
    }};
    ($by:ident $out:tt, $way:expr, ($index:ident: Index5, $($rest:tt)+)) => {{
        let _ = $index;
        $crate::asked!($by $out, $way, ($($rest)+))
    }};
    ($by:ident($($out:ident)?), $way:expr, ($($first:ident $($more:ident)*: $kind:ident),*)) => {{
        let asked = || {
            $(let $first = $crate::rust::Argument::made([$first $(, $more)*])?;)*
            Ok::<_, $crate::rust::Unasked>($way($($first),*))
        };
        $crate::rust::Answers::$by(asked() $(, $out)?)
    }};
}

#[macro_export]
macro_rules! before {
    ($params:tt) => {
        None
    };
    ($params:tt $agrees:ident $before:path) => {
        Some($crate::operation::Before {
            agrees: $crate::operation::$agrees,
            model: |args| $crate::model!($before, args, $params),
        })
    };
}

/// The model, asked with the numbers in `args`.
#[macro_export]
macro_rules! model {
    ($model:path, $args:expr, ($($($word:ident)+: $kind:ident),*)) => {{
        let [$($($word),+),*] = *$args else { unreachable!("as many as kinds have") };
        $model($($(u128::from($word)),+),*)
    }};
}

/// A way of the Rust as a function of the port's convention.
#[macro_export]
macro_rules! timed {
    ($way:expr, ($($($word:ident)+: $kind:ident),*), $sizes:tt) => {{
        #[inline(never)]
        #[allow(clippy::too_many_arguments)]
        extern "C" fn timed($($($word: u64,)+)* out: *mut u64, len: usize) -> u8 {
            // SAFETY: whoever calls lends `len` words at `out`, as with the port.
            let out = unsafe { std::slice::from_raw_parts_mut(out, len) };
            let status = $crate::at_size!(give(out), $way, ($($($word)+: $kind),*), $sizes);
            // Only what the Rust can say is timed.
            status.unwrap_or($crate::answer::NO_SUCH_CHOICE)
        }
        $crate::function!(timed, ($($($word)+: $kind),*))
    }};
}
