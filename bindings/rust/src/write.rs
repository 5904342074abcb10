//! The text of statements, from their tokens.

use crate::reader::{EventKind, Token};
use crate::{c, of_c, Options};
use std::error::Error;
use std::fmt;

/// The names of tokens: the one that was pushed first has the number 0.
///
/// ```no_run
/// let names: pb::NameTable = ["x1", "x2"].into_iter().collect();
/// # let _ = names;
/// ```
#[derive(Clone, Debug, Default, PartialEq, Eq)]
pub struct NameTable {
    bytes: Vec<u8>,
    starts: Vec<u64>,
}

impl NameTable {
    /// No names.
    pub fn new() -> NameTable {
        NameTable::default()
    }

    /// Adds a name, and returns its number.
    pub fn push(&mut self, name: &str) -> usize {
        self.starts.push(self.bytes.len() as u64);
        self.bytes.extend_from_slice(name.as_bytes());
        self.starts.len() - 1
    }
}

impl<S: AsRef<str>> FromIterator<S> for NameTable {
    fn from_iter<I: IntoIterator<Item = S>>(names: I) -> NameTable {
        let mut table = NameTable::new();
        for name in names {
            table.push(name.as_ref());
        }
        table
    }
}

/// Why no statement was written.
#[derive(Clone, Copy, Debug, PartialEq, Eq)]
pub enum WriteFault {
    /// The token with this index breaks a rule. The number of tokens stands for one that is missing, or for the free text.
    Token(usize),
    /// The options are not allowed.
    Misuse,
    /// Memory ran out.
    Failed,
}

impl WriteFault {
    /// The number of the status, as of a command.
    pub fn code(self) -> u8 {
        match self {
            WriteFault::Token(_) => 1,
            WriteFault::Misuse => 2,
            WriteFault::Failed => 3,
        }
    }
}

impl fmt::Display for WriteFault {
    fn fmt(&self, f: &mut fmt::Formatter<'_>) -> fmt::Result {
        match self {
            WriteFault::Token(index) => write!(f, "token {index}: no statement has it there"),
            WriteFault::Misuse => f.write_str("options that are not allowed"),
            WriteFault::Failed => f.write_str("out of memory"),
        }
    }
}

impl Error for WriteFault {}

/// The arrays of tokens.
#[derive(Default)]
struct Arrays {
    codes: Vec<u8>,
    names: Vec<u64>,
    lows: Vec<u64>,
    highs: Vec<i64>,
}

impl Arrays {
    fn of(tokens: &[Token]) -> Arrays {
        let mut arrays = Arrays::default();
        for token in tokens {
            let (code, name, number) = token.parts();
            arrays.codes.push(code);
            arrays.names.push(name as u64);
            arrays.lows.push(number as u64);
            arrays.highs.push((number >> 64) as i64);
        }
        arrays
    }
}

/// The canonical text of a statement, without a line feed, with `Options::default()`. `text` is the free text of a header or a comment, and
/// empty for other kinds.
///
/// ```no_run
/// let names = ["x1", "x2"].into_iter().collect();
/// let tokens = [
///     pb::Token::Term { coefficient: 2, name: 0, negated: false },
///     pb::Token::Term { coefficient: 1, name: 1, negated: true },
///     pb::Token::AtLeast(2),
/// ];
/// let line = pb::write_statement(pb::EventKind::Constraint, &tokens, b"", &names)?;
/// assert_eq!(line, b"+2 x1 +1 ~x2 >= 2 ;");
/// # Ok::<(), pb::WriteFault>(())
/// ```
pub fn write_statement(
    kind: EventKind,
    tokens: &[Token],
    text: &[u8],
    names: &NameTable,
) -> Result<Vec<u8>, WriteFault> {
    write_statement_with(kind, tokens, text, names, &Options::default())
}

/// The same with options, of which only `bits` matters.
pub fn write_statement_with(
    kind: EventKind,
    tokens: &[Token],
    text: &[u8],
    names: &NameTable,
    options: &Options,
) -> Result<Vec<u8>, WriteFault> {
    let arrays = Arrays::of(tokens);
    let mut line: Vec<u8> = Vec::with_capacity(text.len() + 32 * tokens.len() + 64);
    loop {
        let (mut len, mut wrong) = (0, 0);
        // SAFETY: each pointer is that of a slice or a vector with that many elements, and what is written to is borrowed mutably.
        let status = unsafe {
            c::pb_write_statement(
                kind.number(),
                arrays.codes.as_ptr(),
                arrays.codes.len(),
                arrays.names.as_ptr(),
                arrays.names.len(),
                arrays.lows.as_ptr(),
                arrays.lows.len(),
                arrays.highs.as_ptr(),
                arrays.highs.len(),
                text.as_ptr(),
                text.len(),
                names.bytes.as_ptr(),
                names.bytes.len(),
                names.starts.as_ptr(),
                names.starts.len(),
                &of_c(options),
                &mut wrong,
                line.as_mut_ptr(),
                line.capacity(),
                &mut len,
            )
        };
        match status {
            0 if len <= line.capacity() => {
                // SAFETY: the call has written as many bytes, and the room has them.
                unsafe { line.set_len(len) };
                return Ok(line);
            }
            0 => line = Vec::with_capacity(len),
            1 => return Err(WriteFault::Token(wrong)),
            2 => return Err(WriteFault::Misuse),
            _ => return Err(WriteFault::Failed),
        }
    }
}
