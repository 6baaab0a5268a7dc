//! Why a call does not answer.

use std::fmt;

/// The kinds of errors.
#[derive(Clone, Copy, Debug, PartialEq, Eq)]
#[non_exhaustive]
pub enum ErrorKind {
    /// The constants are no declarations of constants whose values are known.
    Constants,
    /// The text is no script.
    NoScript,
    /// No text spells what comes of it.
    NoText,
    /// There was no memory.
    OutOfMemory,
    /// There is no stack for it: no thread has as much, or the turns of a run are more than any stack is enough for.
    Stack,
    /// The library has none with this size, level and flags. Of options made here it is another version that says so.
    Options,
    /// The library answers by a code that is none: it is of another version.
    Version,
}

/// Why a call does not answer, and where in its text.
#[derive(Clone, Debug, PartialEq, Eq)]
pub struct Error {
    kind: ErrorKind,
    line: u32,
    column: u32,
    reason: String,
}

impl Error {
    pub(crate) fn new(code: i64, line: u32, column: u32, reason: String) -> Error {
        let kind = match code {
            -1 => ErrorKind::Options,
            -3 => ErrorKind::Constants,
            -4 => ErrorKind::NoScript,
            -5 => ErrorKind::NoText,
            -6 => ErrorKind::OutOfMemory,
            _ => ErrorKind::Version,
        };
        Error {
            kind,
            line,
            column,
            reason,
        }
    }

    /// An error of this kind that stands nowhere.
    fn of(kind: ErrorKind, reason: String) -> Error {
        Error {
            kind,
            line: 0,
            column: 0,
            reason,
        }
    }

    pub(crate) fn no_memory() -> Error {
        Error::of(ErrorKind::OutOfMemory, "out of memory".to_string())
    }

    pub(crate) fn no_stack(bytes: u64) -> Error {
        let reason = format!("no stack of {bytes} bytes can be made");
        Error::of(ErrorKind::Stack, reason)
    }

    pub(crate) fn no_stack_for_turns(turns: u64) -> Error {
        let reason =
            format!("the run takes more than {turns} turns, and there is no stack for more");
        Error::of(ErrorKind::Stack, reason)
    }

    /// The kind.
    pub fn kind(&self) -> ErrorKind {
        self.kind
    }

    /// The line from 1 on, if it stands anywhere.
    pub fn line(&self) -> Option<u32> {
        above_zero(self.line)
    }

    /// The column from 1 on, if it stands anywhere.
    pub fn column(&self) -> Option<u32> {
        above_zero(self.column)
    }

    /// The reason, without the place.
    pub fn reason(&self) -> &str {
        &self.reason
    }
}

pub(crate) fn above_zero(number: u32) -> Option<u32> {
    (number > 0).then_some(number)
}

pub(crate) fn write_place(
    f: &mut fmt::Formatter<'_>,
    line: Option<u32>,
    column: Option<u32>,
) -> fmt::Result {
    match (line, column) {
        (Some(line), Some(column)) => write!(f, "line {line}, column {column}: "),
        _ => Ok(()),
    }
}

impl fmt::Display for Error {
    fn fmt(&self, f: &mut fmt::Formatter<'_>) -> fmt::Result {
        write_place(f, self.line(), self.column())?;
        f.write_str(&self.reason)
    }
}

impl std::error::Error for Error {}
