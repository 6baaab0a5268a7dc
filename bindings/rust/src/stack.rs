//! The stack of a call: a thread of its own has it, and it is as large as the work can need, whatever the caller's is.
//!
//! The figures are at least twice what is measured of the library (`bindings/c/stacks.c`). What is not touched takes no memory.

use crate::{Error, Options, Syntax};
use std::panic::resume_unwind;
use std::thread;

/// What work takes that goes no deeper.
const BASE: u64 = 1 << 20;

/// What a level of a text takes to be read, optimised and printed.
const LEVEL: u64 = 16 << 10;

/// The levels that are read at most, whatever the options say.
const DEEPEST: u64 = 1000;

/// What a level of a value takes to be copied, printed and let go of.
const VALUE: u64 = 4 << 10;

/// What a level of a function's body takes in a run.
const STEP: u64 = 4 << 10;

/// As many levels does the call of a function take, beside those of its body.
const CALL: u64 = 8;

/// The largest stack that is asked for.
const LARGEST: u64 = 16 << 30;

/// What a call takes of the stack.
#[derive(Clone, Copy, Debug, PartialEq, Eq)]
pub(crate) struct Need {
    whole: u64,
    turn: u64,
}

impl Need {
    /// What it takes to read, optimise and print these texts. A constant that holds another is deeper than any part of its
    /// text: by a level for each sign, and no more than are read for each constant.
    pub(crate) fn of(first: &str, second: &str) -> Need {
        let of_constants = DEEPEST * (constants(first) + constants(second));
        let of_values = of_constants.min(signs(first) + signs(second));
        Need {
            whole: BASE + LEVEL * DEEPEST + VALUE * of_values,
            turn: 0,
        }
    }

    /// What a run takes: in each turn a value may grow by a level for each sign, and a function be called.
    pub(crate) fn of_run(source: &str, options: &Options) -> Need {
        let levels = match options.syntax {
            Syntax::Rhai => read_at_most(options.max_function_expr_depth),
            Syntax::Notation => DEEPEST,
        };
        let call = if has_functions(source) {
            STEP * (levels + CALL)
        } else {
            0
        };
        let turn = VALUE * signs(source) + call;
        let whole = Need::of(source, &options.constants).whole + turn;
        Need { whole, turn }
    }

    /// The bytes for so many turns.
    pub(crate) fn bytes(self, turns: u64) -> u64 {
        self.whole.saturating_add(self.turn.saturating_mul(turns))
    }

    /// How many turns the largest stack is enough for.
    pub(crate) fn most_turns(self) -> u64 {
        match LARGEST.checked_sub(self.whole) {
            Some(rest) => rest.checked_div(self.turn).unwrap_or(u64::MAX),
            None => 0,
        }
    }
}

/// How many signs of a text may make a value deeper, each by a level: those of arrays, maps, calls, steps and closures.
fn signs(text: &str) -> u64 {
    text.bytes().filter(|it| b"[({.|".contains(it)).count() as u64
}

/// How many constants a text may declare.
fn constants(text: &str) -> u64 {
    text.matches("const").count() as u64
}

/// Whether a text may have functions, which alone are called within a call.
fn has_functions(text: &str) -> bool {
    text.contains("fn") || text.contains('|')
}

/// The levels that are read under a bound.
fn read_at_most(bound: u64) -> u64 {
    if bound == 0 {
        DEEPEST
    } else {
        bound.min(DEEPEST)
    }
}

/// What work answers on a stack of so many bytes.
pub(crate) fn on_own<T: Send>(bytes: u64, work: impl FnOnce() -> T + Send) -> Result<T, Error> {
    let size = usize::try_from(bytes).ok().filter(|_| bytes <= LARGEST);
    let builder = thread::Builder::new().stack_size(size.ok_or_else(|| Error::no_stack(bytes))?);
    thread::scope(|scope| {
        let made = builder.spawn_scoped(scope, work);
        let thread = made.map_err(|_| Error::no_stack(bytes))?;
        Ok(thread.join().unwrap_or_else(|panic| resume_unwind(panic)))
    })
}

#[cfg(test)]
mod tests {
    use super::*;

    #[test]
    fn a_text_takes_more_with_each_sign_of_its_constants() {
        let least = BASE + LEVEL * DEEPEST;
        let more = |first, second| Need::of(first, second).bytes(u64::MAX) - least;
        assert_eq!(more("a + f(a[1].b)", "[[["), 0);
        assert_eq!(more("const A = f(a[1].b)", "[["), 5 * VALUE);
        let brackets = "[".repeat(5000);
        assert_eq!(more(&brackets, "const A = 1;"), DEEPEST * VALUE);
    }

    #[test]
    fn a_run_takes_more_with_each_turn() {
        let options = Options::default();
        let of = |source| Need::of_run(source, &options);
        assert_eq!(of("a += 1").most_turns(), u64::MAX);
        assert_eq!(of("loop {}").bytes(2) - of("loop {}").bytes(1), VALUE);
        let called = of("fn f() 0");
        assert_eq!(
            called.bytes(1) - called.bytes(0),
            VALUE + STEP * (32 + CALL)
        );
        assert!(called.bytes(called.most_turns()) <= LARGEST);
        assert_eq!(called.bytes(u64::MAX), u64::MAX);
    }

    #[test]
    fn a_stack_that_cannot_be_made_is_refused() {
        assert_eq!(on_own(BASE, || 5).unwrap(), 5);
        let error = on_own(LARGEST + 1, || 5).unwrap_err();
        assert_eq!(error.kind(), crate::ErrorKind::Stack);
    }
}
