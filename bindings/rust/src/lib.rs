//! Scripts of the language [Rhai](https://rhai.rs) from text to text: optimised, checked, run and merged.
//!
//! Where a run of the script ends, one of the optimised script ends so too: with the same value, thrown or not, the same
//! variables and the same calls of the host, within the same number of turns. That is proved of the library that this
//! crate links; nothing proves this crate, which only calls it.
//!
//! A call works on a thread of its own, whose stack is large enough for all that its texts and options may make of it; so
//! no call takes much of the caller's. Where there is no such thread, it is refused by [`ErrorKind::Stack`].
//!
//! ```
//! let text = balvuzsom::optimize("const N = 2 * 21; print(N);", &balvuzsom::Options::default())?;
//! assert_eq!(text, "const N = 42;\nprint(42);\n");
//! # Ok::<(), balvuzsom::Error>(())
//! ```
#![deny(unsafe_op_in_unsafe_fn)]
#![warn(missing_docs)]

mod calls;
mod error;
mod options;
mod report;
mod stack;

pub use error::{Error, ErrorKind};
pub use options::{Level, Options, Syntax};
pub use report::{Call, End, Report};

use std::fmt;

/// The text of a script, optimised.
pub fn optimize(source: &str, options: &Options) -> Result<String, Error> {
    calls::optimize(source, options)
}

/// What is wrong with a script, in the order of its text: that it is none, a fault, a call without a meaning, a name that
/// nothing in sight declares or uses, a value that is dropped, a statement that never runs, and the like.
pub fn check(source: &str) -> Vec<Finding> {
    check_with(source, &Options::default())
}

/// The same with options: the constants of these are declared.
pub fn check_with(source: &str, options: &Options) -> Vec<Finding> {
    match calls::check(source, options) {
        Ok(lines) => lines.lines().map(Finding::of_line).collect(),
        Err(error) => vec![Finding {
            line: error.line(),
            column: error.column(),
            text: error.reason().to_string(),
        }],
    }
}

/// What a run of a script does within so many turns, where each call of the host is answered by unit. A round of a loop
/// and a call of a function of the script take a turn. Each turn may take some of the stack, more in longer scripts and in
/// those with functions: a run that goes on beyond the turns that the largest stack is enough for is refused by
/// [`ErrorKind::Stack`].
pub fn run(source: &str, turns: u64) -> Result<Report, Error> {
    run_with(source, turns, &Options::default())
}

/// The same with options: a run sees their constants.
pub fn run_with(source: &str, turns: u64, options: &Options) -> Result<Report, Error> {
    calls::run(source, turns, options)
}

/// The second script behind the first, its functions in the place of those with the same name and as many parameters.
pub fn merge(first: &str, second: &str) -> Result<String, Error> {
    merge_with(first, second, &Options::default())
}

/// The same with options.
pub fn merge_with(first: &str, second: &str, options: &Options) -> Result<String, Error> {
    calls::merge(first, second, options)
}

/// The version of the library.
pub fn version() -> String {
    calls::version()
}

/// Something that is wrong with a script.
#[derive(Clone, Debug, PartialEq, Eq)]
pub struct Finding {
    /// The line from 1 on, if it stands anywhere.
    pub line: Option<u32>,
    /// The column from 1 on, if it stands anywhere.
    pub column: Option<u32>,
    /// What it is.
    pub text: String,
}

impl Finding {
    /// What a line `LINE:COLUMN: TEXT` says.
    fn of_line(line: &str) -> Finding {
        let (place, text) = line.split_once(": ").unwrap_or(("", line));
        let (line, column) = place.split_once(':').unwrap_or(("", ""));
        Finding {
            line: error::above_zero(line.parse().unwrap_or(0)),
            column: error::above_zero(column.parse().unwrap_or(0)),
            text: text.to_string(),
        }
    }
}

impl fmt::Display for Finding {
    fn fmt(&self, f: &mut fmt::Formatter<'_>) -> fmt::Result {
        error::write_place(f, self.line, self.column)?;
        f.write_str(&self.text)
    }
}
