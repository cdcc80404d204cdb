//! The Rust's panics, caught and told apart by their text.

use std::any::Any;
use std::cell::Cell;
use std::panic::{self, AssertUnwindSafe};

use crate::answer::{
    DRAW_MEETS_GAP, INDEX_TOO_LARGE, NOT_CANONICAL, NOT_PHYSICAL, NOT_POWER_OF_TWO, OVERFLOW,
    PFN_TOO_LARGE, RESULT_NOT_CANONICAL, RESULT_NOT_PHYSICAL,
};

/// The panics of the unchanged files, by their text.
#[derive(Clone, Copy, Debug, PartialEq, Eq)]
pub enum Panic {
    NotSignExtended,
    NonCanonical,
    Bits52To64,
    Overflow,
    NotPowerOfTwo,
    IndexTooLarge,
    PfnTooLarge,
}

impl Panic {
    /// `None` for a text that the unchanged files do not panic with.
    pub fn of(text: &str) -> Option<Panic> {
        let texts = [
            (
                "must be sign extended in bits 48 to 64",
                Panic::NotSignExtended,
            ),
            ("non-canonical virtual address", Panic::NonCanonical),
            ("bits in the range 52 to 64 set", Panic::Bits52To64),
            ("attempt to add with overflow", Panic::Overflow),
            ("attempt to subtract with overflow", Panic::Overflow),
            ("attempt to multiply with overflow", Panic::Overflow),
            ("`Option::unwrap()` on a `None` value", Panic::Overflow),
            ("`align` must be a power of two", Panic::NotPowerOfTwo),
            ("(index as usize) < ENTRY_COUNT", Panic::IndexTooLarge),
            ("offset < (1 << 12)", Panic::IndexTooLarge),
            ("PFNs must not have any bits", Panic::PfnTooLarge),
        ];
        let mut texts = texts.into_iter();
        texts.find_map(|(part, panic)| text.contains(part).then_some(panic))
    }
}

/// The refusal that a panic stands for, unless the operation's row says otherwise.
pub fn refusal(panic: Panic) -> u8 {
    match panic {
        Panic::NotSignExtended => NOT_CANONICAL,
        Panic::NonCanonical => RESULT_NOT_CANONICAL,
        Panic::Bits52To64 => RESULT_NOT_PHYSICAL,
        Panic::Overflow => OVERFLOW,
        Panic::NotPowerOfTwo => NOT_POWER_OF_TWO,
        Panic::IndexTooLarge => INDEX_TOO_LARGE,
        Panic::PfnTooLarge => PFN_TOO_LARGE,
    }
}

/// In the constructor `PhysAddr::new` the text is about the argument, not about a result.
pub fn refusal_of_new(panic: Panic) -> u8 {
    match panic {
        Panic::Bits52To64 => NOT_PHYSICAL,
        other => refusal(other),
    }
}

/// In a draw of pages a start or an end has been led into the gap.
pub fn refusal_of_draw(panic: Panic) -> u8 {
    match panic {
        Panic::NonCanonical => DRAW_MEETS_GAP,
        other => refusal(other),
    }
}

thread_local! {
    /// Whether a panic now would be one of the Rust that is asked.
    static ASKING: Cell<bool> = const { Cell::new(false) };
}

/// Keeps caught panics from being printed; others are printed as ever. To be called once.
pub fn silence_caught_panics() {
    let usual = panic::take_hook();
    panic::set_hook(Box::new(move |info| {
        if !ASKING.get() {
            usual(info);
        }
    }));
}

/// What the function gives, or the text of its panic.
pub fn catch<T>(function: impl FnOnce() -> T) -> Result<T, String> {
    ASKING.set(true);
    let result = panic::catch_unwind(AssertUnwindSafe(function));
    ASKING.set(false);
    result.map_err(text)
}

fn text(payload: Box<dyn Any + Send>) -> String {
    match payload.downcast::<String>() {
        Ok(text) => *text,
        Err(payload) => match payload.downcast::<&str>() {
            Ok(text) => text.to_string(),
            Err(_) => "no text".to_string(),
        },
    }
}
