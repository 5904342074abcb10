//! The statements of an instance or a proof, one at a time.

use crate::c::wide;
use crate::checker::name_of;
use crate::{c, of_c, Fault, Options, Place};
use std::fmt;
use std::io::{self, BufRead};

/// What a text is read as.
#[derive(Clone, Copy, Debug, PartialEq, Eq)]
pub enum Format {
    Instance,
    Proof,
}

/// What a statement is.
#[derive(Clone, Copy, Debug, PartialEq, Eq)]
#[non_exhaustive]
pub enum EventKind {
    Header,
    Comment,
    Objective,
    Constraint,
    /// The first line of a proof.
    Proof,
    F,
    Pol,
    Rup,
    Soli,
    Solx,
    Delete,
    Output,
    /// `conclusion NONE`
    NoClaim,
    Unsat,
    Sat,
    Bounds,
    End,
}

impl EventKind {
    fn of(number: u32) -> Option<EventKind> {
        Some(match number {
            1 => EventKind::Header,
            2 => EventKind::Comment,
            3 => EventKind::Objective,
            4 => EventKind::Constraint,
            16 => EventKind::Proof,
            17 => EventKind::F,
            18 => EventKind::Pol,
            19 => EventKind::Rup,
            20 => EventKind::Soli,
            21 => EventKind::Solx,
            22 => EventKind::Delete,
            23 => EventKind::Output,
            24 => EventKind::NoClaim,
            25 => EventKind::Unsat,
            26 => EventKind::Sat,
            27 => EventKind::Bounds,
            28 => EventKind::End,
            _ => return None,
        })
    }

    pub(crate) fn number(self) -> u32 {
        match self {
            EventKind::Header => 1,
            EventKind::Comment => 2,
            EventKind::Objective => 3,
            EventKind::Constraint => 4,
            EventKind::Proof => 16,
            EventKind::F => 17,
            EventKind::Pol => 18,
            EventKind::Rup => 19,
            EventKind::Soli => 20,
            EventKind::Solx => 21,
            EventKind::Delete => 22,
            EventKind::Output => 23,
            EventKind::NoClaim => 24,
            EventKind::Unsat => 25,
            EventKind::Sat => 26,
            EventKind::Bounds => 27,
            EventKind::End => 28,
        }
    }
}

/// A part of a statement. A name is given by its number: `Reader::name` and `Events::name` have its text.
#[derive(Clone, Copy, Debug, PartialEq, Eq)]
#[non_exhaustive]
pub enum Token {
    Term {
        coefficient: i128,
        name: usize,
        negated: bool,
    },
    /// Of a solution, or an axiom of `pol`.
    Literal {
        name: usize,
        negated: bool,
    },
    /// The relation `>=` with the degree.
    AtLeast(i128),
    /// The relation `=` with the degree.
    Equal(i128),
    /// A count of a header or of `f`.
    Count(i128),
    /// An id, as written.
    Id(i128),
    Add,
    /// `*`, with the factor before it.
    Multiply(i128),
    /// `d`, with the divisor before it.
    Divide(i128),
    Saturate,
    /// `w`, with the name before it.
    Weaken(usize),
    /// A bound of `conclusion BOUNDS`.
    Bound(i128),
    /// The bound `INF`.
    Infinite,
    /// Literals follow in a conclusion, maybe none.
    Solution,
}

impl Token {
    fn of(code: u8, name: u64, number: i128) -> Token {
        let name = name as usize;
        match code {
            1 | 2 => Token::Term {
                coefficient: number,
                name,
                negated: code == 2,
            },
            3 | 4 => Token::Literal {
                name,
                negated: code == 4,
            },
            5 => Token::AtLeast(number),
            6 => Token::Equal(number),
            7 => Token::Count(number),
            8 => Token::Id(number),
            9 => Token::Add,
            10 => Token::Multiply(number),
            11 => Token::Divide(number),
            12 => Token::Saturate,
            13 => Token::Weaken(name),
            14 => Token::Bound(number),
            15 => Token::Infinite,
            _ => Token::Solution,
        }
    }

    /// Its code, the number of its name and its number, or 0 for what it does not have.
    pub(crate) fn parts(self) -> (u8, usize, i128) {
        match self {
            Token::Term {
                coefficient,
                name,
                negated,
            } => (1 + u8::from(negated), name, coefficient),
            Token::Literal { name, negated } => (3 + u8::from(negated), name, 0),
            Token::AtLeast(degree) => (5, 0, degree),
            Token::Equal(degree) => (6, 0, degree),
            Token::Count(count) => (7, 0, count),
            Token::Id(id) => (8, 0, id),
            Token::Add => (9, 0, 0),
            Token::Multiply(factor) => (10, 0, factor),
            Token::Divide(divisor) => (11, 0, divisor),
            Token::Saturate => (12, 0, 0),
            Token::Weaken(name) => (13, name, 0),
            Token::Bound(bound) => (14, 0, bound),
            Token::Infinite => (15, 0, 0),
            Token::Solution => (16, 0, 0),
        }
    }
}

/// A statement that was read.
#[derive(Clone, Debug, PartialEq, Eq)]
pub struct Event {
    pub kind: EventKind,
    /// The position of its first byte.
    pub place: Place,
    /// The offset past its last byte.
    pub past: u64,
    /// Its parts. The header `pb.h` says which each kind has.
    pub tokens: Vec<Token>,
    /// What follows the counts in a header, or the text of a comment.
    pub text: Vec<u8>,
}

/// Reads an instance or a proof in pieces. It checks the text and not the proof. It stays on the thread that made it, so it is not `Send`.
pub struct Reader {
    // Its pointer makes it neither `Send` nor `Sync`.
    raw: c::Reader,
}

impl Reader {
    /// A reader with `Options::default()`.
    pub fn new(format: Format) -> Result<Reader, Fault> {
        Reader::with(format, &Options::default())
    }

    pub fn with(format: Format, options: &Options) -> Result<Reader, Fault> {
        let (mut raw, mut report) = (c::Reader::CLOSED, c::Report::default());
        let format = match format {
            Format::Instance => 1,
            Format::Proof => 2,
        };
        // SAFETY: what is written to is borrowed mutably.
        let status = unsafe { c::pb_reader_open(format, &of_c(options), &mut raw, &mut report) };
        let reader = Reader { raw };
        no_fault(status, report)?;
        Ok(reader)
    }

    /// Takes a piece of the text, cut anywhere, up to the end of the next statement. Returns how many bytes it took, and the statement if one
    /// ended there. If none did, it took the whole piece, or nothing as the text has ended.
    pub fn feed(&mut self, piece: &[u8]) -> Result<(usize, Option<Event>), Fault> {
        let (mut used, mut event, mut report) = (0, c::Event::default(), c::Report::default());
        // SAFETY: the pointer and the length are those of a slice, and what is written to is borrowed mutably.
        let status = unsafe {
            c::pb_reader_feed(
                &mut self.raw,
                piece.as_ptr(),
                piece.len(),
                &mut used,
                &mut event,
                &mut report,
            )
        };
        no_fault(status, report)?;
        let event = EventKind::of(event.kind).map(|kind| Event {
            kind,
            place: Place {
                line: event.line,
                column: event.column,
                offset: event.offset,
            },
            past: event.past,
            tokens: self.tokens(event.tokens),
            text: self.text(event.bytes),
        });
        Ok((used, event))
    }

    /// Whether the text may end here. What follows its last statement is not part of it.
    pub fn finish(&mut self) -> Result<(), Fault> {
        let mut report = c::Report::default();
        // SAFETY: what is written to is borrowed mutably.
        let status = unsafe { c::pb_reader_finish(&mut self.raw, &mut report) };
        no_fault(status, report)
    }

    /// The name with a number. Names are numbered from 0 in the order in which they first appear.
    pub fn name(&mut self, number: usize) -> String {
        // SAFETY: `name_of` passes the pointer and the length of a slice.
        name_of(|out, room, len| unsafe {
            c::pb_reader_name(&mut self.raw, number, out, room, len)
        })
    }

    /// The tokens of the last statement.
    fn tokens(&mut self, count: usize) -> Vec<Token> {
        let (mut codes, mut names) = (vec![0; count], vec![0; count]);
        let (mut lows, mut highs) = (vec![0; count], vec![0; count]);
        // SAFETY: each pointer is that of a vector with that many elements.
        unsafe {
            c::pb_reader_tokens(
                &mut self.raw,
                codes.as_mut_ptr(),
                count,
                names.as_mut_ptr(),
                count,
                lows.as_mut_ptr(),
                count,
                highs.as_mut_ptr(),
                count,
            )
        };
        (0..count)
            .map(|at| Token::of(codes[at], names[at], wide(lows[at], highs[at])))
            .collect()
    }

    /// The free text of the last statement.
    fn text(&mut self, size: usize) -> Vec<u8> {
        let (mut text, mut len) = (vec![0; size], 0);
        if size > 0 {
            // SAFETY: the pointer is that of a vector with that many elements.
            unsafe { c::pb_reader_bytes(&mut self.raw, text.as_mut_ptr(), size, &mut len) };
            text.truncate(len);
        }
        text
    }
}

/// Nothing for status 0, or else the fault that a report states.
fn no_fault(status: u8, report: c::Report) -> Result<(), Fault> {
    Fault::of(status, report, |_| String::new())
}

impl fmt::Debug for Reader {
    fn fmt(&self, f: &mut fmt::Formatter<'_>) -> fmt::Result {
        f.debug_struct("Reader").finish_non_exhaustive()
    }
}

impl Drop for Reader {
    fn drop(&mut self) {
        // SAFETY: it is closed, or it owns a reader.
        unsafe { c::pb_reader_close(&mut self.raw) };
    }
}

/// The statements of a source, one after another. An error is one of the source, or has a [`Fault`] inside; after it there is nothing more.
/// What follows the last statement is left in the source.
#[derive(Debug)]
pub struct Events<R> {
    reader: Reader,
    source: R,
    is_over: bool,
}

/// The statements of a source, such as a `&[u8]` or a `BufReader`, with `Options::default()`.
///
/// ```no_run
/// let file = std::io::BufReader::new(std::fs::File::open("p.pbp")?);
/// for event in pb::events(pb::Format::Proof, file)? {
///     let event = event?;
///     println!("{}: {:?}", event.place.line, event.kind);
/// }
/// # Ok::<(), Box<dyn std::error::Error>>(())
/// ```
pub fn events<R: BufRead>(format: Format, source: R) -> Result<Events<R>, Fault> {
    Ok(Events {
        reader: Reader::new(format)?,
        source,
        is_over: false,
    })
}

impl<R> Events<R> {
    /// The name with a number.
    pub fn name(&mut self, number: usize) -> String {
        self.reader.name(number)
    }
}

impl<R: BufRead> Events<R> {
    /// The next statement, or `None` at the end of the text.
    fn advance(&mut self) -> io::Result<Option<Event>> {
        loop {
            let piece = self.source.fill_buf()?;
            let size = piece.len();
            if size == 0 {
                self.reader.finish()?;
                return Ok(None);
            }
            let (used, event) = self.reader.feed(piece)?;
            self.source.consume(used);
            if event.is_some() {
                return Ok(event);
            }
            if used < size {
                self.reader.finish()?;
                return Ok(None);
            }
        }
    }
}

impl<R: BufRead> Iterator for Events<R> {
    type Item = io::Result<Event>;

    fn next(&mut self) -> Option<io::Result<Event>> {
        if self.is_over {
            return None;
        }
        let found = self.advance().transpose();
        self.is_over = !matches!(found, Some(Ok(_)));
        found
    }
}
