//! Checks a proof of an instance while it comes in pieces: stream INSTANCE PROOF [SIZE]. It prints what `pb check` prints, and ends with its
//! status.

use std::error::Error;
use std::io::{self, Read, Write};
use std::process::ExitCode;
use std::{env, fs};

/// Feeds a checker with a file in pieces, and returns what the proof shows.
fn checked(
    instance: &[u8],
    mut proof: fs::File,
    size: usize,
) -> io::Result<Result<pb::Verdict, pb::Fault>> {
    let mut checker = match pb::Checker::new(instance) {
        Ok(checker) => checker,
        Err(fault) => return Ok(Err(fault)),
    };
    let mut piece = vec![0; size];
    loop {
        match proof.read(&mut piece)? {
            0 => return Ok(checker.finish()),
            len => {
                if let Err(fault) = checker.feed(&piece[..len]) {
                    return Ok(Err(fault));
                }
            }
        }
    }
}

fn main() -> Result<ExitCode, Box<dyn Error>> {
    let words: Vec<_> = env::args().skip(1).collect();
    let (instance, proof, size) = match &words[..] {
        [instance, proof] => (instance, proof, 4096),
        [instance, proof, size] => (instance, proof, size.parse()?),
        _ => {
            eprintln!("usage: stream INSTANCE PROOF [SIZE]");
            return Ok(ExitCode::from(2));
        }
    };
    match checked(&fs::read(instance)?, fs::File::open(proof)?, size)? {
        Ok(verdict) => {
            writeln!(io::stdout(), "{verdict}")?;
            Ok(ExitCode::SUCCESS)
        }
        Err(fault) => {
            writeln!(io::stderr(), "{fault}")?;
            Ok(ExitCode::from(fault.code()))
        }
    }
}
