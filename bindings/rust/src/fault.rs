//! Why a text is rejected, and where.

use crate::{c, Status};
use std::error::Error;
use std::{fmt, io};

/// Which text a fault is in.
#[derive(Clone, Copy, Debug, PartialEq, Eq)]
pub enum Input {
    Instance,
    Proof,
}

/// Why a text is rejected. The header `pb.h` explains each reason.
#[derive(Clone, Debug, PartialEq, Eq)]
#[non_exhaustive]
pub enum Reason {
    /// This byte may not come here.
    Byte(u8),
    TooLarge,
    Ended,
    TooLong,
    Memory,
    Overflow,
    /// The number of the constraints, which `f` does not give.
    FormulaCount(u64),
    /// The id, as written.
    NoSuchId(i64),
    NotImplied,
    Conflict,
    /// The name that gets no value.
    NotTotal(String),
    /// The id of the constraint.
    Violates(u64),
    NoObjective,
    NoContradiction,
    SolutionLogged,
    NoSolution,
    NotBound,
    IdsSpent,
    Order,
    /// The options are not allowed.
    Misused,
}

impl Reason {
    fn of(report: &c::Report, name: impl FnOnce(usize) -> String) -> Reason {
        match report.reason {
            1 => Reason::Byte(report.number as u8),
            2 => Reason::TooLarge,
            3 => Reason::Ended,
            4 => Reason::TooLong,
            6 => Reason::Memory,
            10 => Reason::Overflow,
            11 => Reason::FormulaCount(report.number),
            12 => Reason::NoSuchId(report.id),
            13 => Reason::NotImplied,
            14 => Reason::Conflict,
            15 => Reason::NotTotal(name(report.number as usize)),
            16 => Reason::Violates(report.number),
            17 => Reason::NoObjective,
            18 => Reason::NoContradiction,
            19 => Reason::SolutionLogged,
            20 => Reason::NoSolution,
            21 => Reason::NotBound,
            22 => Reason::IdsSpent,
            23 => Reason::Order,
            _ => Reason::Misused,
        }
    }
}

impl fmt::Display for Reason {
    fn fmt(&self, f: &mut fmt::Formatter<'_>) -> fmt::Result {
        match self {
            Reason::Byte(byte) => write!(f, "byte 0x{byte:02x}"),
            Reason::TooLarge => f.write_str("number too large"),
            Reason::Ended => f.write_str("input ended"),
            Reason::TooLong => f.write_str("input too long"),
            Reason::Memory => f.write_str("out of memory"),
            Reason::Overflow => f.write_str("overflow"),
            Reason::FormulaCount(count) => write!(f, "formula has {count} constraints"),
            Reason::NoSuchId(id) => write!(f, "no such id {id}"),
            Reason::NotImplied => f.write_str("not implied"),
            Reason::Conflict => f.write_str("conflict"),
            Reason::NotTotal(name) => write!(f, "no value for {name}"),
            Reason::Violates(id) => write!(f, "violates constraint {id}"),
            Reason::NoObjective => f.write_str("no objective"),
            Reason::NoContradiction => f.write_str("not a contradiction"),
            Reason::SolutionLogged => f.write_str("a solution was logged"),
            Reason::NoSolution => f.write_str("no solution"),
            Reason::NotBound => f.write_str("not a bound"),
            Reason::IdsSpent => f.write_str("ids spent"),
            Reason::Order => f.write_str("out of order"),
            Reason::Misused => f.write_str("options that are not allowed"),
        }
    }
}

/// A position in a text.
#[derive(Clone, Copy, Debug, PartialEq, Eq)]
pub struct Place {
    /// The line, from 1.
    pub line: u64,
    /// The column, in bytes and from 1.
    pub column: u64,
    /// The offset, in bytes and from 0.
    pub offset: u64,
}

/// A checker rejected a text. `{}` is the line that the command prints.
#[derive(Clone, Debug, PartialEq, Eq)]
pub struct Fault {
    status: Status,
    input: Option<Input>,
    place: Option<Place>,
    reason: Reason,
}

impl Fault {
    /// Nothing for status 0, or else the fault that a report states. `name` gives the name with a number.
    pub(crate) fn of(
        status: u8,
        report: c::Report,
        name: impl FnOnce(usize) -> String,
    ) -> Result<(), Fault> {
        let Some(status) = Status::of(status) else {
            return Ok(());
        };
        Err(Fault {
            status,
            input: match report.input {
                1 => Some(Input::Instance),
                2 => Some(Input::Proof),
                _ => None,
            },
            place: (report.line != 0).then_some(Place {
                line: report.line,
                column: report.column,
                offset: report.offset,
            }),
            reason: Reason::of(&report, name),
        })
    }

    pub fn status(&self) -> Status {
        self.status
    }

    /// The number of the status, which is the exit status of the command.
    pub fn code(&self) -> u8 {
        self.status.code()
    }

    /// Which text it is in, if it is in one.
    pub fn input(&self) -> Option<Input> {
        self.input
    }

    /// The position, if the reason has one.
    pub fn place(&self) -> Option<Place> {
        self.place
    }

    /// The line, from 1, or 0 if there is no position.
    pub fn line(&self) -> u64 {
        self.place.map_or(0, |place| place.line)
    }

    /// The column, in bytes and from 1, or 0 if there is no position.
    pub fn column(&self) -> u64 {
        self.place.map_or(0, |place| place.column)
    }

    pub fn reason(&self) -> &Reason {
        &self.reason
    }
}

impl fmt::Display for Fault {
    fn fmt(&self, f: &mut fmt::Formatter<'_>) -> fmt::Result {
        match self.input {
            Some(Input::Instance) => f.write_str("instance: ")?,
            Some(Input::Proof) => f.write_str("proof: ")?,
            None => {}
        }
        if let Some(place) = self.place {
            write!(f, "line {} column {}: ", place.line, place.column)?;
        }
        self.reason.fmt(f)
    }
}

impl Error for Fault {}

impl From<Fault> for io::Error {
    /// An error of the kind `InvalidData` with the fault inside.
    fn from(fault: Fault) -> io::Error {
        io::Error::new(io::ErrorKind::InvalidData, fault)
    }
}
