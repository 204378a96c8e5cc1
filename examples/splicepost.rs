//! Splicepost for Rust: the two calls over slices. The library is libsplicepost_c.a, which `rt lib` makes in crates/splicepost_c.
//!
//! `unsafe` stands here alone. What the calls ask (include/splicepost.h) is what slices are: aligned, as long as they say, and none that
//! is written to overlaps another.

use std::error::Error;
use std::fmt::{self, Display, Formatter};

/// The numbers that the builder takes of the work room.
pub const WORK: usize = 8192;

/// The bytes of the longest table.
pub const TABLE: usize = 128 * 127 * 8;

#[derive(Clone, Copy, Debug, PartialEq, Eq)]
pub enum Mode {
    Lane,
    Canonical,
}

/// The number of a refusal and its place: docs/REFUSALS.md.
#[derive(Clone, Copy, Debug, PartialEq, Eq)]
pub struct Refused {
    pub number: u64,
    pub place: u64,
}

/// A table that was built: its records are the first bytes of the table room, 8 bytes each.
#[derive(Clone, Copy, Debug, PartialEq, Eq)]
pub struct Built {
    pub states: usize,
    pub records: usize,
}

/// The steps that a run made, and the productions that it put on the list.
#[derive(Clone, Copy, Debug, PartialEq, Eq)]
pub struct Run {
    pub steps: u64,
    pub listed: usize,
}

/// A run that did not accept, or none: its steps and list are then 0.
#[derive(Clone, Copy, Debug, PartialEq, Eq)]
pub struct Stopped {
    pub why: Refused,
    pub run: Run,
}

impl Refused {
    /// What the number means, in a few words.
    pub fn meaning(&self) -> &'static str {
        match self.number {
            1 => "no such mode",
            2 => "the work room is too short",
            3 => "the grammar is empty, too long, or no multiple of 8 bytes",
            4 => "this record of the grammar holds what none may",
            5 => "this record of the grammar stands where it cannot",
            6 => "the start stands in this production too",
            7 => "this nonterminal has no production",
            8 => "this nonterminal derives no string of terminals",
            9 => "too many states",
            10 => "too many items",
            11 => "too many actions at this state",
            12 => "so many conflicts",
            13 => "this state fails the final check",
            14 => "the table room is too short for so many records",
            15 => "this record of the table is malformed",
            16 => "this token is no terminal of the grammar",
            17 => "rejected at this token",
            18 => "the table is broken",
            19 => "the list room is full",
            20 => "the stack room is full",
            21 => "the step limit is reached",
            _ => "no number of a refusal",
        }
    }

    /// Whether a run had begun: 17 to 21 come with its steps and its list.
    pub fn ended_a_run(&self) -> bool {
        17 <= self.number
    }
}

/// The line that the program prints, and what the number means.
impl Display for Refused {
    fn fmt(&self, f: &mut Formatter<'_>) -> fmt::Result {
        write!(f, "refused {} {}: {}", self.number, self.place, self.meaning())
    }
}

/// The same, with steps and list length where a run had begun.
impl Display for Stopped {
    fn fmt(&self, f: &mut Formatter<'_>) -> fmt::Result {
        let Stopped { why, run } = self;
        if !why.ended_a_run() {
            return why.fmt(f);
        }
        write!(f, "refused {} {} {} {}: {}", why.number, why.place, run.steps, run.listed, why.meaning())
    }
}

impl Error for Refused {}

impl Error for Stopped {
    fn source(&self) -> Option<&(dyn Error + 'static)> {
        Some(&self.why)
    }
}

#[link(name = "splicepost_c", kind = "static")]
extern "C" {
    fn splicepost_build(
        mode: u64,
        grammar: *const u8,
        grammar_length: usize,
        table: *mut u8,
        table_length: usize,
        work: *mut u64,
        work_length: usize,
        answer: *mut u64,
        answer_length: usize,
    ) -> u64;
    fn splicepost_drive(
        grammar: *const u8,
        grammar_length: usize,
        table: *const u8,
        table_length: usize,
        tokens: *const u8,
        tokens_length: usize,
        limit: u64,
        stack: *mut u16,
        stack_length: usize,
        list: *mut u16,
        list_length: usize,
        answer: *mut u64,
        answer_length: usize,
    ) -> u64;
}

/// Builds the table of a coded grammar. A refusal leaves the table room as it was.
pub fn build(mode: Mode, grammar: &[u8], table: &mut [u8], work: &mut [u64]) -> Result<Built, Refused> {
    let mode = match mode {
        Mode::Lane => 0,
        Mode::Canonical => 1,
    };
    let mut answer = [0u64; 3];
    let number = unsafe {
        splicepost_build(
            mode,
            grammar.as_ptr(),
            grammar.len(),
            table.as_mut_ptr(),
            table.len(),
            work.as_mut_ptr(),
            work.len(),
            answer.as_mut_ptr(),
            answer.len(),
        )
    };
    let [place, states, records] = answer;
    if number != 0 {
        return Err(Refused { number, place });
    }
    Ok(Built { states: states as usize, records: records as usize })
}

/// Runs a table over tokens in at most `limit` steps; the productions listed are the first numbers of `list`.
pub fn drive(
    grammar: &[u8],
    table: &[u8],
    tokens: &[u8],
    limit: u64,
    stack: &mut [u16],
    list: &mut [u16],
) -> Result<Run, Stopped> {
    let mut answer = [0u64; 3];
    let number = unsafe {
        splicepost_drive(
            grammar.as_ptr(),
            grammar.len(),
            table.as_ptr(),
            table.len(),
            tokens.as_ptr(),
            tokens.len(),
            limit,
            stack.as_mut_ptr(),
            stack.len(),
            list.as_mut_ptr(),
            list.len(),
            answer.as_mut_ptr(),
            answer.len(),
        )
    };
    let [place, steps, listed] = answer;
    let run = Run { steps, listed: listed as usize };
    if number != 0 {
        return Err(Stopped { why: Refused { number, place }, run });
    }
    Ok(run)
}
