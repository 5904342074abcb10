//! A check of a proof in the pieces in which it is written.

use crate::c::wide;
use crate::{c, of_c, Fault, Options, Place, Verdict};
use std::fmt;
use std::io::{self, Write};

/// What a checker has accepted. The ids that a statement gave are those after the newest id before it.
#[derive(Clone, Copy, Debug, Default, PartialEq, Eq)]
pub struct State {
    /// How many statements were accepted.
    pub accepted: u64,
    /// The newest id of a constraint, or 0 if there is none.
    pub newest: u64,
    /// The visits of the last `rup`, or 0 if there was none.
    pub visits: u64,
}

/// A term of a live constraint: the coefficient times a literal.
#[derive(Clone, Debug, PartialEq, Eq)]
pub struct LiveTerm {
    pub coefficient: i128,
    pub name: String,
    pub negated: bool,
}

/// A live constraint in normal form: the sum of its terms is at least the degree.
#[derive(Clone, Debug, PartialEq, Eq)]
pub struct Live {
    pub terms: Vec<LiveTerm>,
    pub degree: i128,
}

/// Checks the proof of an instance while it is written. As a `Write` it takes the text of the proof; an error has a [`Fault`] inside. It stays
/// on the thread that made it, so it is not `Send`.
///
/// ```no_run
/// use std::io::Write;
///
/// let mut checker = pb::Checker::new(&std::fs::read("p.opb")?)?;
/// writeln!(checker, "pseudo-Boolean proof version 2.0")?;
/// println!("{}", checker.finish()?);
/// # Ok::<(), Box<dyn std::error::Error>>(())
/// ```
pub struct Checker {
    // Its pointer makes it neither `Send` nor `Sync`.
    raw: c::Checker,
}

impl Checker {
    /// A checker of proofs of this instance, with `Options::default()`.
    pub fn new(instance: &[u8]) -> Result<Checker, Fault> {
        Checker::with(instance, &Options::default())
    }

    /// A checker of proofs of this instance.
    pub fn with(instance: &[u8], options: &Options) -> Result<Checker, Fault> {
        let mut checker = Checker {
            raw: c::Checker::CLOSED,
        };
        let mut report = c::Report::default();
        // SAFETY: the pointer and the length are those of a slice, and what is written to is borrowed mutably.
        let status = unsafe {
            c::pb_checker_open(
                instance.as_ptr(),
                instance.len(),
                &of_c(options),
                &mut checker.raw,
                &mut report,
            )
        };
        checker.answer(status, report)?;
        Ok(checker)
    }

    /// Takes a piece of the proof, cut anywhere. Returns how many of its bytes belong to the proof: none after its end.
    pub fn feed(&mut self, piece: &[u8]) -> Result<usize, Fault> {
        let (mut used, mut report) = (0, c::Report::default());
        // SAFETY: as in `with`.
        let status = unsafe {
            c::pb_checker_feed(
                &mut self.raw,
                piece.as_ptr(),
                piece.len(),
                &mut used,
                &mut report,
            )
        };
        self.answer(status, report)?;
        Ok(used)
    }

    /// Takes a piece of the proof up to the end of the next statement. Returns how many of its bytes belong to the proof, and whether a
    /// statement ended there and was accepted. If one did, call it again with the rest of the piece. If none did, it took the whole piece.
    pub fn step(&mut self, piece: &[u8]) -> Result<(usize, bool), Fault> {
        let (mut used, mut ended, mut report) = (0, false, c::Report::default());
        // SAFETY: as in `with`.
        let status = unsafe {
            c::pb_checker_step(
                &mut self.raw,
                piece.as_ptr(),
                piece.len(),
                &mut used,
                &mut ended,
                &mut report,
            )
        };
        self.answer(status, report)?;
        Ok((used, ended))
    }

    /// What was accepted so far. After a fault only the number of statements has a meaning.
    pub fn state(&mut self) -> State {
        let mut state = c::State::default();
        // SAFETY: as in `with`. The checker is open, so the status is 0.
        unsafe { c::pb_checker_state(&mut self.raw, &mut state) };
        State {
            accepted: state.accepted,
            newest: state.newest,
            visits: state.visits,
        }
    }

    /// The live constraint with an id, if one has it. It has no meaning after a fault.
    pub fn constraint(&mut self, id: u64) -> Option<Live> {
        let mut count = 0;
        // SAFETY: as in `with`.
        if unsafe { c::pb_checker_terms(&mut self.raw, id, &mut count) } != 0 {
            return None;
        }
        let (mut numbers, mut negated) = (vec![0; count], vec![0; count]);
        let (mut lows, mut highs) = (vec![0; count], vec![0; count]);
        let mut degree = c::Number::default();
        // SAFETY: each pointer is that of a vector with that many elements.
        unsafe {
            c::pb_checker_constraint(
                &mut self.raw,
                id,
                numbers.as_mut_ptr(),
                count,
                negated.as_mut_ptr(),
                count,
                lows.as_mut_ptr(),
                count,
                highs.as_mut_ptr(),
                count,
                &mut degree,
            )
        };
        let terms = (0..count)
            .map(|at| LiveTerm {
                coefficient: wide(lows[at], highs[at]),
                name: self.name(numbers[at] as usize),
                negated: negated[at] != 0,
            })
            .collect();
        Some(Live {
            terms,
            degree: wide(degree.low, degree.high),
        })
    }

    /// What the proof shows if it ends here.
    pub fn finish(&mut self) -> Result<Verdict, Fault> {
        let (mut claim, mut report) = (c::Claim::default(), c::Report::default());
        // SAFETY: as in `with`.
        let status = unsafe { c::pb_checker_finish(&mut self.raw, &mut claim, &mut report) };
        self.answer(status, report)?;
        Ok(claim.verdict())
    }

    /// The position of the next byte of the proof. After its last statement it stays.
    pub fn place(&mut self) -> Place {
        let mut place = c::Place::default();
        // SAFETY: as in `with`. The checker is open, so the status is 0.
        unsafe { c::pb_checker_place(&mut self.raw, &mut place) };
        Place {
            line: place.line,
            column: place.column,
            offset: place.offset,
        }
    }

    /// How much of the current statement is stored, at most the number of its bytes so far.
    pub fn held(&mut self) -> usize {
        let mut held = 0;
        // SAFETY: as in `with`. The checker is open, so the status is 0.
        unsafe { c::pb_checker_held(&mut self.raw, &mut held) };
        held
    }

    /// The name with a number.
    fn name(&mut self, number: usize) -> String {
        // SAFETY: `name_of` passes the pointer and the length of a slice.
        name_of(|out, room, len| unsafe {
            c::pb_checker_name(&mut self.raw, number, out, room, len)
        })
    }

    /// Nothing for status 0, or else the fault that a report states.
    fn answer(&mut self, status: u8, report: c::Report) -> Result<(), Fault> {
        Fault::of(status, report, |number| self.name(number))
    }
}

/// A name that a call writes, asked again with more room where it is long.
pub(crate) fn name_of(mut call: impl FnMut(*mut u8, usize, *mut usize) -> u8) -> String {
    let mut room = vec![0; 64];
    loop {
        let mut len = 0;
        call(room.as_mut_ptr(), room.len(), &mut len);
        if len <= room.len() {
            room.truncate(len);
            return String::from_utf8_lossy(&room).into_owned();
        }
        room = vec![0; len];
    }
}

impl Write for Checker {
    /// Takes the whole piece, also the bytes after the proof.
    fn write(&mut self, piece: &[u8]) -> io::Result<usize> {
        match self.feed(piece) {
            Ok(_) => Ok(piece.len()),
            Err(fault) => Err(fault.into()),
        }
    }

    fn flush(&mut self) -> io::Result<()> {
        Ok(())
    }
}

impl fmt::Debug for Checker {
    fn fmt(&self, f: &mut fmt::Formatter<'_>) -> fmt::Result {
        f.debug_struct("Checker").finish_non_exhaustive()
    }
}

impl Drop for Checker {
    fn drop(&mut self) {
        // SAFETY: it is closed, or it owns a checker.
        unsafe { c::pb_checker_close(&mut self.raw) };
    }
}
