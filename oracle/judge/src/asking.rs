//! Questions that the published code answers by a panic.
//!
//! Two of document 01's refusals stand where the published code panics: a
//! wrong number of combinators (always), and ids that are not strictly
//! ascending (in debug builds). Those are asked here, not worked out again.

use std::cell::Cell;
use std::panic::{AssertUnwindSafe, catch_unwind, set_hook, take_hook};
use std::sync::Once;

// Without the debug assertions every list would pass for ascending.
#[cfg(not(debug_assertions))]
compile_error!("the judge needs debug assertions: build with `cargo build --profile judge`");

thread_local! {
    static ASKING: Cell<bool> = const { Cell::new(false) };
}

/// What the published code answers, or nothing if it panics.
pub fn asked<T>(question: impl FnOnce() -> T) -> Option<T> {
    static QUIET: Once = Once::new();
    // Only a panic that was asked for is kept quiet: the judge's own faults
    // are still shown.
    QUIET.call_once(|| {
        let loud = take_hook();
        set_hook(Box::new(move |info| {
            if !ASKING.get() {
                loud(info);
            }
        }));
    });
    ASKING.set(true);
    let answer = catch_unwind(AssertUnwindSafe(question));
    ASKING.set(false);
    answer.ok()
}
