//! The unchanged Rust, asked.

pub mod answers;
pub mod argument;
pub mod panics;
pub mod ranges;
pub mod unasked;

pub use answers::Answers;
pub use argument::{can_say, Argument};
pub use panics::{refusal, refusal_of_draw, refusal_of_new, silence_caught_panics, Panic};
pub use ranges::drawn;
pub use unasked::Unasked;

use crate::answer::Answer;
use crate::kind::Kind;

/// One way to ask. `None` where the Rust has no way to say the question.
pub type Way = fn(&[u64]) -> Option<Answer>;

/// What asking came to.
pub struct Asked {
    /// `None` where the Rust has no way to say the question.
    pub answer: Option<Answer>,
    pub panicked: bool,
    /// Why the answer is not to be trusted: two ways disagree, or a panic has an unknown text.
    pub trouble: Option<String>,
}

/// Asks every way. What the constructor of an argument refuses is the answer; a width, a level or a
/// size that there is not can't be said, whatever else is refused.
pub fn ask(kinds: &[Kind], ways: &[Way], refusal: fn(Panic) -> u8, args: &[u64]) -> Asked {
    if !can_say(kinds, args) {
        return Asked {
            answer: None,
            panicked: false,
            trouble: None,
        };
    }
    let mut asked = ask_way(ways[0], refusal, args);
    for &way in &ways[1..] {
        let other = ask_way(way, refusal, args);
        if asked.trouble.is_none() {
            asked.trouble = other.trouble;
        }
        if asked.trouble.is_none() && other.answer != asked.answer {
            let answer = other.answer.map_or("not asked".into(), |a| a.to_string());
            asked.trouble = Some(format!("another way gives {answer}"));
        }
    }
    asked
}

fn ask_way(way: Way, refusal: fn(Panic) -> u8, args: &[u64]) -> Asked {
    match panics::catch(|| way(args)) {
        Ok(answer) => Asked {
            answer,
            panicked: false,
            trouble: None,
        },
        Err(text) => {
            let told = Panic::of(&text);
            Asked {
                answer: told.map(|panic| Answer::refused(refusal(panic))),
                panicked: true,
                trouble: told.is_none().then(|| format!("unknown panic: {text}")),
            }
        }
    }
}
