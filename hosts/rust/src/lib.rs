//! Quernhem for a host in Rust: runs and checks bath recipes over memory that the host lends. What the calls do is proved of the library that this
//! wraps (docs/HOST.md); here only pointers and lengths are handed on, so a host needs no `unsafe` code of its own.
//!
//! A call needs 64 KiB of stack ([`STACK`]), asks the system for nothing, and keeps nothing: threads may call at the same time.
//!
//! ```
//! use quernhem::{ask, check, run, Lent, Outcome, Record, Tables, Variable, Verdict};
//!
//! let recipe = b"10 LINE INPUT L$\n20 PRINT \"LOT \";L$\n";
//! assert_eq!(check(recipe), Verdict::Passed);
//!
//! let (mut space, mut room) = ([0; 64], [0; 256]);
//! let (mut records, mut tables) = ([Record::default(); 32], Tables::default());
//! let lent = Lent { space: &mut space, room: &mut room, records: &mut records, index: None };
//! let ran = run(recipe, b"A-17\n", lent, 1000, &mut tables);
//! assert_eq!(ran.outcome, Outcome::Ended);
//! assert_eq!(&room[..ran.written], b"LOT A-17\r\n");
//! assert_eq!(ask(&tables, &space, b"L$"), Some(Variable::Text(b"A-17")));
//! ```
#![no_std]

mod index;
mod raw;
mod receiving;

pub use index::{Callers, Index};
pub use receiving::Receiver;

/// How many bytes of stack to keep for a call.
pub const STACK: usize = 65536;
/// The largest string space: a larger one is refused (106).
pub const SPACE: usize = 16384;
/// The largest text: a larger one is refused (100). A buffer to receive in has as many bytes or more.
pub const TEXT: usize = 16384;
/// The most records: more are refused (107).
pub const RECORDS: usize = 256;

const TABLES: usize = 5314;
const ANSWER: usize = 7;
const VERDICT: usize = 4;
const FOUND: usize = 5;

/// A record of FOR, WHILE or GOSUB that is lent to a run. Any will do; a run that is not refused leaves zeros.
#[repr(C)]
#[derive(Clone, Copy, Debug, Default, PartialEq, Eq)]
pub struct Record {
    kind: u8,
    over: u8,
    limit: u16,
    step: u16,
    spare: u16,
    slot: usize,
    line: usize,
    at: usize,
    ending: usize,
    close: usize,
}

const _: () = assert!(core::mem::size_of::<Record>() == 48);

/// The variables of a run, for [`ask`]. Those of a run that was refused are as they were before it.
#[derive(Clone, PartialEq, Eq)]
pub struct Tables([u8; TABLES]);

impl Default for Tables {
    fn default() -> Self {
        Self([0; TABLES])
    }
}

impl Tables {
    /// The block of bytes that docs/HOST.md describes, to be stored.
    pub fn bytes(&self) -> &[u8; TABLES] {
        &self.0
    }

    /// The tables that a block of bytes means; any bytes mean some.
    pub fn from_bytes(bytes: [u8; TABLES]) -> Self {
        Self(bytes)
    }
}

/// What is lent to a run.
pub struct Lent<'a> {
    /// For the strings: up to [`SPACE`] bytes.
    pub space: &'a mut [u8],
    /// For the output.
    pub room: &'a mut [u8],
    /// One for each loop and subroutine that may be open at once: up to [`RECORDS`].
    pub records: &'a mut [Record],
    /// The text's own index, which makes jumps quicker; the index of another text is not used.
    pub index: Option<&'a Index>,
}

/// A refusal: its number, and the place of the byte of the text that it is about, counted from 0.
#[derive(Clone, Copy, Debug, PartialEq, Eq)]
pub struct Refusal {
    /// 100 to 111, as docs/LANGUAGE.md lists them.
    pub number: u8,
    /// 0 where the refusal is about no byte.
    pub place: usize,
}

/// How a run came out.
#[derive(Clone, Copy, Debug, PartialEq, Eq)]
pub enum Outcome {
    /// After the last line, or at END.
    Ended,
    /// At STOP.
    Stopped {
        /// The line of the STOP.
        line: u16,
    },
    /// The budget was used up.
    OutOfSteps {
        /// The line of the statement that was not begun.
        line: u16,
    },
    /// A statement failed.
    Failed {
        /// The error's number, as docs/LANGUAGE.md lists them.
        error: u8,
        /// The line of the statement.
        line: u16,
    },
    /// The run was not begun, and nothing lent is changed.
    Refused(Refusal),
}

/// The answer of a run.
#[derive(Clone, Copy, Debug, PartialEq, Eq)]
pub struct Ran {
    /// How it came out.
    pub outcome: Outcome,
    /// How many statements were begun.
    pub steps: u32,
    /// How many bytes of the room are output.
    pub written: usize,
    /// How many bytes of the input were taken.
    pub taken: usize,
}

/// What the check says.
#[derive(Clone, Copy, Debug, PartialEq, Eq)]
pub enum Verdict {
    /// No run of the recipe ends in error 2, 8, 13 or 16.
    Passed,
    /// The first faulty line.
    Faulty {
        /// 2, 8, 13 or 16.
        error: u8,
        /// The line's number.
        line: u16,
    },
    /// The text does not load.
    Refused(Refusal),
}

/// A variable's value after a run.
#[derive(Clone, Copy, Debug, PartialEq, Eq)]
pub enum Variable<'a> {
    /// Of a name without `$`; an unset one is 0.
    Whole(i16),
    /// Of a name with `$`, as its part of the string space; an unset one is empty.
    Text(&'a [u8]),
}

// The library's words: a number of an error or refusal has at most 8 bits, a line number 16, a place is one of the text's.
fn refusal(number: u64, place: u64) -> Refusal {
    Refusal {
        number: number as u8,
        place: place as usize,
    }
}

// A verdict of loading, indexing or receiving: fine, or refused.
fn loaded(verdict: [u64; VERDICT]) -> Result<(), Refusal> {
    let [faulty, number, _, place] = verdict;
    if faulty == 0 {
        Ok(())
    } else {
        Err(refusal(number, place))
    }
}

/// Runs a recipe on an input, for at most `budget` statements.
pub fn run(text: &[u8], input: &[u8], lent: Lent<'_>, budget: u32, tables: &mut Tables) -> Ran {
    let mut answer = [0; ANSWER];
    let index: &[u16] = lent.index.map_or(&[], Index::words);
    // SAFETY: each pointer is a slice's or an array's, with its own length; what is written to is borrowed mutably, and so overlaps nothing.
    unsafe {
        raw::quernhem_run(
            text.as_ptr(),
            text.len(),
            input.as_ptr(),
            input.len(),
            lent.space.as_mut_ptr(),
            lent.space.len(),
            lent.room.as_mut_ptr(),
            lent.room.len(),
            index.as_ptr(),
            index.len(),
            lent.records.as_mut_ptr(),
            lent.records.len(),
            budget,
            tables.0.as_mut_ptr(),
            answer.as_mut_ptr(),
        );
    }
    let [outcome, number, line, place, steps, written, taken] = answer;
    let line = line as u16;
    let outcome = match outcome {
        0 => Outcome::Ended,
        1 => Outcome::Stopped { line },
        2 => Outcome::OutOfSteps { line },
        3 => Outcome::Failed {
            error: number as u8,
            line,
        },
        _ => Outcome::Refused(refusal(number, place)),
    };
    Ran {
        outcome,
        steps: steps as u32,
        written: written as usize,
        taken: taken as usize,
    }
}

/// Checks a recipe before it ever runs.
pub fn check(text: &[u8]) -> Verdict {
    let mut verdict = [0; VERDICT];
    // SAFETY: the text is a slice with its own length, and the verdict has the words that the header says.
    unsafe { raw::quernhem_check(text.as_ptr(), text.len(), verdict.as_mut_ptr()) };
    match verdict {
        [0, ..] => Verdict::Passed,
        [_, number @ 0..=99, line, _] => Verdict::Faulty {
            error: number as u8,
            line: line as u16,
        },
        [_, number, _, place] => Verdict::Refused(refusal(number, place)),
    }
}

/// Asks for a variable after a run: `LOT`, `LOT$` or `LOT%`, in capitals or small letters, with no blank. Nothing where that is no name, or the space
/// ends before its bytes (111).
pub fn ask<'a>(tables: &Tables, space: &'a [u8], name: &[u8]) -> Option<Variable<'a>> {
    let mut found = [0; FOUND];
    // SAFETY: space and name are slices with their own lengths; tables and what is found are as long as the header says.
    unsafe {
        raw::quernhem_ask(
            tables.0.as_ptr(),
            space.as_ptr(),
            space.len(),
            name.as_ptr(),
            name.len(),
            found.as_mut_ptr(),
        )
    };
    let [number, kind, value, start, length] = found;
    if number != 0 {
        None
    } else if kind == 0 {
        Some(Variable::Whole(value as i16))
    } else {
        space
            .get(start as usize..(start + length) as usize)
            .map(Variable::Text)
    }
}
