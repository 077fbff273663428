//! Compares this implementation with the first one, call by call, through the
//! first one's C interface: answers, refusals and all lent memory.
//!
//! `cargo run --release --bin compare` runs the usual seed; `-- --seed S` another
//! one, and `--rounds R` the random parts R times in each family. The status is 0
//! only if there was no difference and all calls, all refusals, faults of all
//! fields, all outcomes of a report, bad sources in all that has sources, all
//! outcomes of sheets of all forms, tables of all lengths, both families and none
//! named to all calls, other paths, and entries and addresses of the other family
//! occurred.

#[cfg(archive)]
mod against;
mod options;

use std::process::ExitCode;

fn main() -> ExitCode {
    match options::read(std::env::args().skip(1)) {
        Ok(options) => compare(options),
        Err(fault) => {
            eprintln!("compare: {fault}\n{}", options::USAGE);
            ExitCode::from(2)
        }
    }
}

#[cfg(archive)]
fn compare(options: options::Options) -> ExitCode {
    against::all(options)
}

/// The archive was not there when this program was built.
#[cfg(not(archive))]
fn compare(options: options::Options) -> ExitCode {
    let options::Options { seed, rounds } = options;
    eprintln!("compare --seed {seed} --rounds {rounds}: built without ../target/staticlib/libpim.a;");
    eprintln!("build that archive first, then build and run this program again");
    ExitCode::FAILURE
}
