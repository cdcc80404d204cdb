//! The port, as include/wuohtan.h declares it.

use std::ptr;

use crate::answer::{Answer, ANSWERED, MOST_WORDS, NO_ROOM};

/// The numbers of arguments that functions have; all that depends on that number is made here.
macro_rules! arities {
    ($($name:ident $count:literal ($($arg:ident),*);)*) => {
        /// A function of the port's convention, by the number of its arguments.
        #[derive(Clone, Copy)]
        pub enum Function {
            $($name(unsafe extern "C" fn($($arg: u64,)* out: *mut u64, len: usize) -> u8),)*
        }

        $(impl Of<$count> {
            pub const fn function(
                function: unsafe extern "C" fn($($arg: u64,)* out: *mut u64, len: usize) -> u8,
            ) -> Function {
                Function::$name(function)
            }
        })*

        impl Function {
            #[inline]
            pub fn call(self, args: &[u64], out: &mut [u64]) -> u8 {
                let len = out.len();
                // A null pointer may stand where no words are lent.
                let words = if len == 0 { ptr::null_mut() } else { out.as_mut_ptr() };
                match (self, args) {
                    // SAFETY: the function writes to the `len` words at `out` and nothing else.
                    $((Function::$name(f), &[$($arg),*]) => unsafe { f($($arg,)* words, len) },)*
                    _ => panic!("a wrong number of arguments"),
                }
            }

            /// Calls the function with its arguments in a row, so often. The address of the
            /// function is not known here, so no call can be left out.
            #[inline(never)]
            pub fn call_often(self, calls: usize, args: &[u64], out: &mut [u64; MOST_WORDS]) {
                let out = out.as_mut_ptr();
                match self {
                    $(Function::$name(f) => each(calls, args, |[$($arg),*]: [u64; $count]| {
                        // SAFETY: as in `call`.
                        unsafe { f($($arg,)* out, MOST_WORDS) };
                    }),)*
                }
            }
        }
    };
}

/// Makes the function of so many arguments.
pub struct Of<const COUNT: usize>;

arities! {
    Zero 0 ();
    One 1 (a);
    Two 2 (a, b);
    Three 3 (a, b, c);
    Four 4 (a, b, c, d);
    Five 5 (a, b, c, d, e);
    Six 6 (a, b, c, d, e, f6);
}

/// Calls with N numbers at a time. All that the loop needs has room in registers.
#[inline(always)]
fn each<const N: usize>(calls: usize, mut args: &[u64], call: impl Fn([u64; N])) {
    for _ in 0..calls {
        let Some((&now, rest)) = args.split_first_chunk() else {
            return;
        };
        call(now);
        args = rest;
    }
}

/// What the port must leave alone holds these words.
const PATTERN: u64 = 0xa5c3_96f0_5a3c_690f;

/// More than any answer needs.
const ROOM: usize = MOST_WORDS + 4;

/// Asks the port with out of every length that matters: longer than the answer, exactly as long,
/// one word too short, and none. Words that it must not write are looked at after each call.
/// `words` is how many the answer should have.
pub fn ask(function: Function, args: &[u64], words: usize) -> Result<Answer, String> {
    let answer = ask_with(function, args, ROOM, words)?;
    for len in shorter(words) {
        let again = ask_with(function, args, len, words)?;
        let expected = if answer.status == ANSWERED && len < words {
            Answer::refused(NO_ROOM)
        } else {
            answer
        };
        if again != expected {
            return Err(format!("{answer}; with out of {len} words: {again}"));
        }
    }
    Ok(answer)
}

/// The lengths of out that are tried beside a long one, each once.
fn shorter(words: usize) -> impl Iterator<Item = usize> {
    let exact = (words > 0).then_some(words);
    let short = (words > 1).then(|| words - 1);
    [Some(0), short, exact].into_iter().flatten()
}

/// Asks the port with out of `len` words. If it answers, the answer has `words` words.
fn ask_with(function: Function, args: &[u64], len: usize, words: usize) -> Result<Answer, String> {
    let mut out = [PATTERN; ROOM];
    let status = function.call(args, &mut out[..len]);
    let written = if status == ANSWERED { words } else { 0 };
    if let Some(place) = (written..ROOM).find(|&place| out[place] != PATTERN) {
        let word = out[place];
        return Err(format!(
            "status {status}, with out of {len} words; wrote {word:x} to word {place}"
        ));
    }
    Ok(match status {
        ANSWERED => Answer::words(&out[..words]),
        status => Answer::refused(status),
    })
}
