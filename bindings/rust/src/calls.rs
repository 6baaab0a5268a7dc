//! The calls of the library: all that is unsafe here. What the library owes is proved; what a caller owes it is said at
//! each `unsafe`.

use crate::stack::{on_own, Need};
use crate::{End, Error, Level, Options, Report, Syntax};

/// `struct balvuzsom_options` of bindings/c/balvuzsom.h.
#[repr(C)]
struct RawOptions {
    size: u64,
    turns: u64,
    level: u32,
    flags: u32,
    max_expr_depth: u64,
    max_function_expr_depth: u64,
    max_string_size: u64,
}

/// `struct balvuzsom_refusal` of bindings/c/balvuzsom.h.
#[repr(C)]
#[derive(Default)]
struct RawRefusal {
    line: u32,
    column: u32,
    length: u64,
}

/// A call over two texts: the source and the known constants, or the scripts to be merged.
type Call = unsafe extern "C" fn(
    first: *const u8,
    first_length: usize,
    second: *const u8,
    second_length: usize,
    options: *const RawOptions,
    room: *mut u8,
    room_length: usize,
    refusal: *mut RawRefusal,
) -> i64;

// As bindings/c/balvuzsom.h has them.
extern "C" {
    fn balvuzsom_optimize(
        source: *const u8,
        source_length: usize,
        known: *const u8,
        known_length: usize,
        options: *const RawOptions,
        room: *mut u8,
        room_length: usize,
        refusal: *mut RawRefusal,
    ) -> i64;
    fn balvuzsom_check(
        source: *const u8,
        source_length: usize,
        known: *const u8,
        known_length: usize,
        options: *const RawOptions,
        room: *mut u8,
        room_length: usize,
        refusal: *mut RawRefusal,
    ) -> i64;
    fn balvuzsom_run(
        source: *const u8,
        source_length: usize,
        known: *const u8,
        known_length: usize,
        options: *const RawOptions,
        room: *mut u8,
        room_length: usize,
        refusal: *mut RawRefusal,
    ) -> i64;
    fn balvuzsom_merge(
        first: *const u8,
        first_length: usize,
        second: *const u8,
        second_length: usize,
        options: *const RawOptions,
        room: *mut u8,
        room_length: usize,
        refusal: *mut RawRefusal,
    ) -> i64;
    fn balvuzsom_version(room: *mut u8, room_length: usize, refusal: *mut RawRefusal) -> i64;
}

pub(crate) fn optimize(source: &str, options: &Options) -> Result<String, Error> {
    answered(balvuzsom_optimize, source, &options.constants, options)
}

pub(crate) fn check(source: &str, options: &Options) -> Result<String, Error> {
    answered(balvuzsom_check, source, &options.constants, options)
}

pub(crate) fn merge(first: &str, second: &str, options: &Options) -> Result<String, Error> {
    answered(balvuzsom_merge, first, second, options)
}

/// What a call answers on a stack of its own.
fn answered(call: Call, first: &str, second: &str, options: &Options) -> Result<String, Error> {
    let (bytes, raw) = (Need::of(first, second).bytes(0), raw(options, 0));
    on_own(bytes, || asked(call, first, second, &raw))?
}

/// What a run does. It has as many of its turns as there is a stack for: if it ends within these, so it does with more.
pub(crate) fn run(source: &str, turns: u64, options: &Options) -> Result<Report, Error> {
    let need = Need::of_run(source, options);
    let mut given = turns.min(need.most_turns());
    loop {
        let raw = raw(options, given);
        let work = || asked(balvuzsom_run, source, &options.constants, &raw);
        match on_own(need.bytes(given), work) {
            Ok(answer) => return reported(answer?, given, turns - given),
            Err(error) if given == 0 => return Err(error),
            Err(_) => given /= 2,
        }
    }
}

/// The report of a run that was given some of its turns, and not the others.
fn reported(text: String, given: u64, others: u64) -> Result<Report, Error> {
    let report = Report::new(text);
    if others > 0 && report.end() == End::OutOfTurns {
        return Err(Error::no_stack_for_turns(given));
    }
    Ok(report.with_more(others))
}

pub(crate) fn version() -> String {
    let mut room = vec![0; 64];
    let mut refusal = RawRefusal::default();
    // SAFETY: the room is writable for its length, and nothing else is lent.
    let length = unsafe { balvuzsom_version(room.as_mut_ptr(), room.len(), &mut refusal) };
    text_of(room, u64::try_from(length).unwrap_or(0))
}

fn raw(options: &Options, turns: u64) -> RawOptions {
    RawOptions {
        size: std::mem::size_of::<RawOptions>() as u64,
        turns,
        level: match options.level {
            Level::None => 0,
            Level::Simple => 1,
            Level::Full => 2,
        },
        flags: match options.syntax {
            Syntax::Rhai => 0,
            Syntax::Notation => 1,
        },
        max_expr_depth: options.max_expr_depth,
        max_function_expr_depth: options.max_function_expr_depth,
        max_string_size: options.max_string_size,
    }
}

/// Makes a call, and once more where the room was too small.
fn asked(call: Call, first: &str, second: &str, options: &RawOptions) -> Result<String, Error> {
    let mut room = first.len() + second.len() + 1024;
    loop {
        let (answer, wanted) = asked_once(call, first, second, options, room_of(room)?);
        if wanted <= room as u64 {
            return answer;
        }
        room = usize::try_from(wanted).unwrap_or(usize::MAX);
    }
}

/// So many bytes to be written.
fn room_of(length: usize) -> Result<Vec<u8>, Error> {
    let mut room = Vec::new();
    room.try_reserve_exact(length)
        .map_err(|_| Error::no_memory())?;
    room.resize(length, 0);
    Ok(room)
}

/// Makes a call with a room, on a stack that is large enough. What it answers, as far as there was room, and how much room that wants.
fn asked_once(
    call: Call,
    first: &str,
    second: &str,
    options: &RawOptions,
    mut room: Vec<u8>,
) -> (Result<String, Error>, u64) {
    let mut refusal = RawRefusal::default();
    // SAFETY: each pointer with a length is that of a slice that is lent for the call: texts and options to be read, the
    // room and the refusal to be written, and none overlaps another. No slice of Rust has a null pointer. The room's
    // bytes are initialised, and any bytes may be written there. The library keeps none of the pointers. The stack is large
    // enough, since `on_own` has made it so.
    let code = unsafe {
        call(
            first.as_ptr(),
            first.len(),
            second.as_ptr(),
            second.len(),
            options,
            room.as_mut_ptr(),
            room.len(),
            &mut refusal,
        )
    };
    match u64::try_from(code) {
        Ok(length) => (Ok(text_of(room, length)), length),
        Err(_) => {
            let RawRefusal {
                line,
                column,
                length,
            } = refusal;
            let reason = text_of(room, length);
            (Err(Error::new(code, line, column, reason)), length)
        }
    }
}

/// The text of so many bytes, as far as the room has them.
fn text_of(mut room: Vec<u8>, length: u64) -> String {
    room.truncate(usize::try_from(length).unwrap_or(usize::MAX));
    String::from_utf8(room).unwrap_or_else(|it| String::from_utf8_lossy(it.as_bytes()).into_owned())
}
