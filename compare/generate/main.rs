//! Makes what the comparison of the proved programs with the second program
//! (../../second) needs: batches of records and of stored plans; and the
//! example plans that are drawn and not taken from a real network. It says
//! nothing about the right answers, and it shares no code with the other
//! programs.
//!
//! Build:  rustc -O --edition 2021 -D warnings main.rs -o generate
//!         (the other files of the program are found beside this one)
//! Use:    generate codec SEED COUNT > batch      codec_batch.rs
//!         generate tables SEED COUNT > batch     tables_batch.rs
//!         generate reports SEED COUNT > batch    reports_batch.rs
//!         generate parallel SEED COUNT > batch   parallel_batch.rs
//!         generate example NAME > plan           examples.rs
//!
//! The files named tell what COUNT counts, and ../FORMAT.md what a batch looks
//! like. The same seed and count give the same batch. Standard error tells what is in
//! it, and whether COUNT was too small for the deliberate cases.

mod chance;
mod codec_batch;
mod detours;
mod examples;
mod networks;
mod parallel;
mod parallel_batch;
mod parallel_plans;
mod record;
mod reports_batch;
mod shapes;
mod stored;
mod tables_batch;

use chance::Chance;
use std::io::{self, Write};
use std::process::ExitCode;

fn batch(command: &str, seed: &str, count: &str) -> Result<Vec<u8>, String> {
    let seed: u64 = seed.parse().map_err(|_| "the seed is no number".to_string())?;
    let count: usize = count.parse().map_err(|_| "the count is no number".to_string())?;
    let chance = &mut Chance::new(seed);
    match command {
        "codec" => Ok(codec_batch::make(chance, count)),
        "tables" => Ok(tables_batch::make(chance, count)),
        "reports" => Ok(reports_batch::make(chance, count)),
        "parallel" => Ok(parallel_batch::make(chance, count)),
        other => Err(format!("no such batch: {other}; there is codec, tables, reports or parallel")),
    }
}

fn run() -> Result<(), String> {
    let arguments: Vec<String> = std::env::args().skip(1).collect();
    let words: Vec<&str> = arguments.iter().map(String::as_str).collect();
    let made = match words[..] {
        ["example", name] => examples::plan(name)?,
        [command, seed, count] => batch(command, seed, count)?,
        _ => return Err("give a batch, a seed and a count; or example and a name".to_string()),
    };
    io::stdout().lock().write_all(&made).map_err(|fault| fault.to_string())
}

fn main() -> ExitCode {
    match run() {
        Ok(()) => ExitCode::SUCCESS,
        Err(fault) => {
            eprintln!("generate: {fault}");
            ExitCode::from(2)
        }
    }
}
