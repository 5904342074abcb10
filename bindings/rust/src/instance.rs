//! An instance as values.

use crate::c::wide;
use crate::{c, of_c, Fault, Options, Place};

/// A term: the coefficient times a literal. The name has its number in `Instance::names`.
#[derive(Clone, Copy, Debug, PartialEq, Eq)]
pub struct Term {
    pub coefficient: i128,
    pub name: usize,
    pub negated: bool,
}

/// What a constraint demands of its sum.
#[derive(Clone, Copy, Debug, PartialEq, Eq)]
pub enum Relation {
    AtLeast,
    Equal,
}

/// A constraint, with the position of its first byte.
#[derive(Clone, Debug, PartialEq, Eq)]
pub struct Constraint {
    pub terms: Vec<Term>,
    pub relation: Relation,
    pub degree: i128,
    pub place: Place,
}

/// An instance. Comments, and what follows the counts in the header, are left out.
#[derive(Clone, Debug, Default, PartialEq, Eq)]
pub struct Instance {
    /// The names, in the order in which they first appear.
    pub names: Vec<String>,
    /// The terms of the objective, if there is one.
    pub objective: Option<Vec<Term>>,
    pub constraints: Vec<Constraint>,
}

impl Instance {
    /// The instance that a text is, with `Options::default()`.
    pub fn read(text: &[u8]) -> Result<Instance, Fault> {
        Instance::read_with(text, &Options::default())
    }

    /// The instance that a text is.
    pub fn read_with(text: &[u8], options: &Options) -> Result<Instance, Fault> {
        let (mut arrays, mut report) = (Arrays(c::Instance::CLOSED), c::Report::default());
        // SAFETY: the pointer and the length are those of a slice, and what is written to is borrowed mutably.
        let status = unsafe {
            c::pb_instance_read(
                text.as_ptr(),
                text.len(),
                &of_c(options),
                &mut arrays.0,
                &mut report,
            )
        };
        Fault::of(status, report, |_| String::new())?;
        let sizes = arrays.sizes();
        let mut instance = Instance {
            names: arrays.names(sizes.names, sizes.name_bytes),
            ..Instance::default()
        };
        let terms = arrays.terms(sizes.terms);
        arrays.rows(sizes.rows, &terms, &mut instance);
        Ok(instance)
    }
}

/// The arrays of the library.
struct Arrays(c::Instance);

impl Arrays {
    fn sizes(&mut self) -> c::Sizes {
        let mut sizes = c::Sizes::default();
        // SAFETY: what is written to is borrowed mutably.
        unsafe { c::pb_instance_sizes(&mut self.0, &mut sizes) };
        sizes
    }

    fn names(&mut self, count: usize, size: usize) -> Vec<String> {
        let (mut bytes, mut starts) = (vec![0; size], vec![0; count]);
        // SAFETY: each pointer is that of a vector with that many elements.
        unsafe {
            c::pb_instance_names(
                &mut self.0,
                bytes.as_mut_ptr(),
                size,
                starts.as_mut_ptr(),
                count,
            )
        };
        starts.push(size as u64);
        starts
            .windows(2)
            .map(|it| &bytes[it[0] as usize..it[1] as usize])
            .map(|name| String::from_utf8_lossy(name).into_owned())
            .collect()
    }

    fn terms(&mut self, count: usize) -> Vec<Term> {
        let (mut numbers, mut negated) = (vec![0; count], vec![0; count]);
        let (mut lows, mut highs) = (vec![0; count], vec![0; count]);
        // SAFETY: each pointer is that of a vector with that many elements.
        unsafe {
            c::pb_instance_terms(
                &mut self.0,
                numbers.as_mut_ptr(),
                count,
                negated.as_mut_ptr(),
                count,
                lows.as_mut_ptr(),
                count,
                highs.as_mut_ptr(),
                count,
            )
        };
        (0..count)
            .map(|at| Term {
                coefficient: wide(lows[at], highs[at]),
                name: numbers[at] as usize,
                negated: negated[at] != 0,
            })
            .collect()
    }

    /// Adds the rows, with their terms, to an instance.
    fn rows(&mut self, count: usize, terms: &[Term], instance: &mut Instance) {
        let (mut kinds, mut ends) = (vec![0; count], vec![0; count]);
        let (mut lows, mut highs) = (vec![0; count], vec![0; count]);
        let (mut lines, mut columns) = (vec![0; count], vec![0; count]);
        let (mut firsts, mut pasts) = (vec![0; count], vec![0; count]);
        // SAFETY: each pointer is that of a vector with that many elements.
        unsafe {
            c::pb_instance_rows(
                &mut self.0,
                kinds.as_mut_ptr(),
                count,
                ends.as_mut_ptr(),
                count,
                lows.as_mut_ptr(),
                count,
                highs.as_mut_ptr(),
                count,
            );
            c::pb_instance_places(
                &mut self.0,
                lines.as_mut_ptr(),
                count,
                columns.as_mut_ptr(),
                count,
                firsts.as_mut_ptr(),
                count,
                pasts.as_mut_ptr(),
                count,
            );
        }
        let mut begin = 0;
        for at in 0..count {
            let end = ends[at] as usize;
            let terms = terms[begin..end].to_vec();
            begin = end;
            let relation = match kinds[at] {
                0 => {
                    instance.objective = Some(terms);
                    continue;
                }
                1 => Relation::AtLeast,
                _ => Relation::Equal,
            };
            instance.constraints.push(Constraint {
                terms,
                relation,
                degree: wide(lows[at], highs[at]),
                place: Place {
                    line: lines[at],
                    column: columns[at],
                    offset: firsts[at],
                },
            });
        }
    }
}

impl Drop for Arrays {
    fn drop(&mut self) {
        // SAFETY: it is closed, or it owns arrays.
        unsafe { c::pb_instance_close(&mut self.0) };
    }
}
