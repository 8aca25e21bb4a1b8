//! Asks the Rust text where it may panic. Where a walk over a dependency map refers to a key that is not in the map, or
//! expands one without target, the text panics; document 01 has numbers for both.

use std::any::Any;
use std::panic::{self, AssertUnwindSafe};

use crate::refusal::Refusal;

/// What the text panics with, and the number of that.
const PANICS: [(&str, Refusal); 3] = [
    ("no relevant sort expr found", Refusal::NotInMap),
    ("`referred_sort_expr` should be inside `dependency_map`", Refusal::NotInMap),
    ("called `Option::unwrap()` on a `None` value", Refusal::NoTarget),
];

/// What the text answers, or the number of its panic. Another panic goes on.
pub fn asked<T>(call: impl FnOnce() -> T) -> Result<T, Refusal> {
    in_silence(|| panic::catch_unwind(AssertUnwindSafe(call))).map_err(|reason| {
        let said = message(&*reason);
        match PANICS.iter().find(|(known, _)| said == Some(known)) {
            Some((_, refusal)) => *refusal,
            None => {
                said.iter().for_each(|said| eprintln!("the Rust text panicked: {said}"));
                panic::resume_unwind(reason)
            }
        }
    })
}

/// Does a call without a word about its panics.
fn in_silence<T>(call: impl FnOnce() -> T) -> T {
    let usual = panic::take_hook();
    panic::set_hook(Box::new(|_| {}));
    let answer = call();
    panic::set_hook(usual);
    answer
}

/// The words of a panic, if it has any.
fn message(reason: &dyn Any) -> Option<&str> {
    reason.downcast_ref::<&str>().copied().or_else(|| reason.downcast_ref::<String>().map(String::as_str))
}
