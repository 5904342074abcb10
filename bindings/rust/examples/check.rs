//! Checks a proof of an instance: check INSTANCE PROOF. It prints what `pb check` prints, and ends with its status.

use std::io::{self, Write};
use std::process::ExitCode;
use std::{env, fs};

fn main() -> io::Result<ExitCode> {
    let words: Vec<_> = env::args_os().skip(1).collect();
    let [instance, proof] = &words[..] else {
        eprintln!("usage: check INSTANCE PROOF");
        return Ok(ExitCode::from(2));
    };
    match pb::check(&fs::read(instance)?, &fs::read(proof)?) {
        Ok(verdict) => {
            writeln!(io::stdout(), "{verdict}")?;
            Ok(ExitCode::SUCCESS)
        }
        Err(fault) => {
            writeln!(io::stderr(), "{fault}")?;
            Ok(ExitCode::from(fault.code()))
        }
    }
}
