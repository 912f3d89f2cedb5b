//! The second program: an independent re-telling of document 01, and of
//! document 02's requests as they land.
//!
//! It exists only to be compared with the proved program. It was written from
//! these documents alone and shares no code and no table with anything else
//! in the repository; it is not proved, and nothing else may call it. Where it
//! could be written in another style than the proved program's, it was (a
//! number's groups are found first and then summed, the plan is made whole
//! before the room is looked at, best paths grow as trees, a walk is a loop),
//! so that one slip is less likely to be made twice.
//!
//! Build:  rustc -O --edition 2021 -D warnings second.rs
//!         (the other files of the program are found beside this one)
//! Use:    second codec < batch > answers      reader and writer of plans
//!         second tables < batch > answers     paths, tables, steps and walks
//!         second rules < batch                what tells rules apart
//!         second report < plan                a stored plan's report
//!         second selftest                     reads nothing
//!
//! What a batch and its answers look like: ../compare/FORMAT.md.
//! Exit status: 0, a refused plan's report included; 1 if the self-test found
//! a fault, or if the batch does not tell the rules apart; 2 if the arguments
//! or the batch are not well formed.

mod batch;
mod codec;
mod network;
mod paths;
mod plan;
mod records;
mod report;
mod rules;
mod selftest;
mod tables;
mod walk;

use std::io::{self, Read, Write};
use std::process::ExitCode;

const COMMANDS: &str = "codec, tables, rules, report or selftest";

fn input() -> Result<Vec<u8>, String> {
    let mut bytes = Vec::new();
    io::stdin().lock().read_to_end(&mut bytes).map_err(|fault| fault.to_string())?;
    Ok(bytes)
}

/// Whether all is well; only the self-test and the rules can say that it is not.
fn run() -> Result<bool, String> {
    let arguments: Vec<String> = std::env::args().skip(1).collect();
    let [command] = arguments.as_slice() else {
        return Err(format!("give one sub-command: {COMMANDS}"));
    };
    let mut output = io::BufWriter::new(io::stdout().lock());
    let mut well = true;
    match command.as_str() {
        "codec" => codec::run(&input()?, &mut output)?,
        "tables" => records::run(&input()?, &mut output)?,
        "rules" => well = rules::run(&input()?, &mut output)?,
        "report" => {
            let text = report::text(&input()?);
            output.write_all(text.as_bytes()).map_err(|fault| fault.to_string())?;
        }
        "selftest" => well = selftest::run(&mut output)?,
        other => return Err(format!("no such sub-command: {other}; there is {COMMANDS}")),
    }
    output.flush().map_err(|fault| fault.to_string())?;
    Ok(well)
}

fn main() -> ExitCode {
    match run() {
        Ok(true) => ExitCode::SUCCESS,
        Ok(false) => ExitCode::from(1),
        Err(fault) => {
            eprintln!("second: {fault}");
            ExitCode::from(2)
        }
    }
}
