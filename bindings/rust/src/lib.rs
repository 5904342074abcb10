//! The verified checker pb, from Rust: `check`, `tidy` and `show` do for bytes in memory what the commands of these names do for
//! files. A [`Checker`] checks a proof in the pieces in which it is written, an [`Instance`] has an instance as values, and [`events`] gives
//! one statement at a time. [`write_statement`] writes one. `include/pb.h` states the promises of each call, and which of them are proved.
//!
//! ```no_run
//! let (instance, proof) = (std::fs::read("p.opb")?, std::fs::read("p.pbp")?);
//! let verdict = pb::check(&instance, &proof)?;
//! println!("{verdict}");
//! # Ok::<(), Box<dyn std::error::Error>>(())
//! ```

use std::collections::hash_map::RandomState;
use std::error::Error;
use std::fmt;
use std::hash::{BuildHasher, Hasher};

mod c;
mod checker;
mod fault;
mod instance;
mod reader;
mod write;

pub use checker::{Checker, Live, LiveTerm, State};
pub use fault::{Fault, Input, Place, Reason};
pub use instance::{Constraint, Instance, Relation, Term};
pub use reader::{events, Event, EventKind, Events, Format, Reader, Token};
pub use write::{write_statement, write_statement_with, NameTable, WriteFault};

/// The version of the linked library as one number, 1002003 for 1.2.3.
pub fn version() -> u32 {
    // SAFETY: it has no parameters.
    unsafe { c::pb_version() }
}

/// The options of a call.
#[derive(Clone, Copy, Debug, PartialEq, Eq)]
pub struct Options {
    /// The most bytes of one statement, or 0 for no such limit.
    pub longest: u64,
    /// The bits of the magnitude of a coefficient, 31 to 127, or 0 for 127.
    pub bits: u32,
    /// The keys of the hashes of names. No answer depends on them.
    pub keys: [u64; 2],
}

impl Default for Options {
    /// No limit on statements, 127 bits, and random keys.
    fn default() -> Options {
        let keys = [random(), random()];
        Options {
            longest: 0,
            bits: 127,
            keys,
        }
    }
}

fn random() -> u64 {
    RandomState::new().build_hasher().finish()
}

/// What a verified proof has shown. `{}` is the line that `pb check` prints, without its line feed.
#[derive(Clone, Copy, Debug, PartialEq, Eq)]
pub enum Verdict {
    /// The steps are right, and nothing is claimed.
    NoClaim,
    /// No assignment solves the instance.
    Unsat,
    /// Some assignment solves the instance.
    Sat,
    /// Each solution has an objective of the first number or more, and one has the second number or less. With no first
    /// number there is no solution, and with no second one there is no claim of an upper bound.
    Bounds(Option<i128>, Option<i128>),
}

impl Verdict {
    /// No assignment solves the instance.
    pub fn is_unsat(&self) -> bool {
        *self == Verdict::Unsat
    }
}

impl fmt::Display for Verdict {
    fn fmt(&self, f: &mut fmt::Formatter<'_>) -> fmt::Result {
        let word = |bound: &Option<i128>| bound.map_or("INF".to_string(), |it| it.to_string());
        match self {
            Verdict::NoClaim => f.write_str("verified NONE"),
            Verdict::Unsat => f.write_str("verified UNSAT"),
            Verdict::Sat => f.write_str("verified SAT"),
            Verdict::Bounds(lower, upper) => {
                write!(f, "verified BOUNDS {} {}", word(lower), word(upper))
            }
        }
    }
}

/// Why a call failed.
#[derive(Clone, Copy, Debug, PartialEq, Eq)]
pub enum Status {
    /// A text is rejected, and the text of the [`Refusal`] says where and why.
    Refused,
    /// The options are not allowed.
    Misuse,
    /// Memory ran out, and nothing is known of the texts.
    Failed,
}

impl Status {
    /// The number of the status, which is the exit status of the command.
    pub fn code(self) -> u8 {
        match self {
            Status::Refused => 1,
            Status::Misuse => 2,
            Status::Failed => 3,
        }
    }

    /// The status with a number, or `None` for success.
    fn of(number: u8) -> Option<Status> {
        match number {
            0 => None,
            1 => Some(Status::Refused),
            2 => Some(Status::Misuse),
            _ => Some(Status::Failed),
        }
    }
}

/// `tidy` or `show` failed. `{}` and `{:?}` show the text, so that `main` may return it as an error.
#[derive(Clone, PartialEq, Eq)]
pub struct Refusal {
    pub status: Status,
    /// What the call wrote. It ends in the line of the fault, or in a prefix of that line if memory ran out for it.
    pub text: Vec<u8>,
}

impl Refusal {
    /// The number of the status, which is the exit status of the command.
    pub fn code(&self) -> u8 {
        self.status.code()
    }

    /// The line of the fault, from 1, or 0 if it has no position.
    pub fn line(&self) -> u64 {
        self.position().0
    }

    /// The column of the fault, in bytes and from 1, or 0 if it has no position.
    pub fn column(&self) -> u64 {
        self.position().1
    }

    /// The line and the column that the last line of the text names.
    fn position(&self) -> (u64, u64) {
        let text = String::from_utf8_lossy(&self.text);
        let words: Vec<_> = text.lines().last().unwrap_or("").split(' ').collect();
        let number = |word: &str| word.trim_end_matches(':').parse().unwrap_or(0);
        match words[..] {
            ["file:", "line", line, "column", column, ..] => (number(line), number(column)),
            _ => (0, 0),
        }
    }
}

impl fmt::Display for Refusal {
    fn fmt(&self, f: &mut fmt::Formatter<'_>) -> fmt::Result {
        f.write_str(String::from_utf8_lossy(&self.text).trim_end())
    }
}

impl fmt::Debug for Refusal {
    fn fmt(&self, f: &mut fmt::Formatter<'_>) -> fmt::Result {
        f.debug_struct("Refusal")
            .field("status", &self.status)
            .field("text", &String::from_utf8_lossy(&self.text))
            .finish()
    }
}

impl Error for Refusal {}

/// Checks a proof of an instance, with `Options::default()`.
pub fn check(instance: &[u8], proof: &[u8]) -> Result<Verdict, Fault> {
    check_with(instance, proof, &Options::default())
}

/// Checks a proof of an instance.
pub fn check_with(instance: &[u8], proof: &[u8], options: &Options) -> Result<Verdict, Fault> {
    let mut checker = Checker::with(instance, options)?;
    checker.feed(proof)?;
    checker.finish()
}

/// The canonical text of an instance or a proof, or with `normal` the normal form of an instance.
pub fn tidy(text: &[u8], normal: bool, options: &Options) -> Result<Vec<u8>, Refusal> {
    let guess = text.len().saturating_mul(if normal { 6 } else { 2 });
    answer(options, guess, |options, room, size, len| {
        // SAFETY: a pointer and a length are those of a slice, and the others are those that `answer` gives.
        unsafe { c::pb_tidy(text.as_ptr(), text.len(), normal, options, room, size, len) }
    })
}

/// The statements of a text, each after its line and column. A refusal has the statements before the fault, and then its line.
pub fn show(text: &[u8], options: &Options) -> Result<Vec<u8>, Refusal> {
    answer(
        options,
        text.len().saturating_mul(6),
        |options, room, size, len| {
            // SAFETY: as in `tidy`.
            unsafe { c::pb_show(text.as_ptr(), text.len(), options, room, size, len) }
        },
    )
}

fn of_c(options: &Options) -> c::Options {
    c::Options {
        longest: options.longest,
        key0: options.keys[0],
        key1: options.keys[1],
        bits: options.bits,
    }
}

/// What a call writes. It gets so much room that a second call with the length of the first is hardly ever needed. Room that it does not
/// write to is given back, and its pages were never used.
fn answer(
    options: &Options,
    guess: usize,
    call: impl Fn(&c::Options, *mut u8, usize, &mut usize) -> u8,
) -> Result<Vec<u8>, Refusal> {
    let options = of_c(options);
    let mut text = Vec::new();
    if text.try_reserve_exact(guess.saturating_add(4096)).is_err() {
        text.reserve_exact(4096);
    }
    loop {
        let mut len = 0;
        let status = call(&options, text.as_mut_ptr(), text.capacity(), &mut len);
        if len <= text.capacity() {
            // SAFETY: the call has written as many bytes, and the room has them.
            unsafe { text.set_len(len) };
            text.shrink_to_fit();
            return ended(status, text);
        }
        text = Vec::with_capacity(len);
    }
}

/// The text of a call, or its refusal, by its status.
fn ended(status: u8, text: Vec<u8>) -> Result<Vec<u8>, Refusal> {
    match Status::of(status) {
        None => Ok(text),
        Some(status) => Err(Refusal { status, text }),
    }
}

#[cfg(test)]
mod tests {
    use super::{answer, Options};

    #[test]
    fn an_answer_longer_than_the_guess_is_asked_for_again() {
        let whole: Vec<u8> = (0..=255).cycle().take(10_000).collect();
        let found = answer(&Options::default(), 0, |_, room, size, len| {
            let fits = size.min(whole.len());
            // SAFETY: the room has that many bytes.
            unsafe { room.copy_from(whole.as_ptr(), fits) };
            *len = whole.len();
            0
        });
        assert_eq!(found, Ok(whole));
    }
}
