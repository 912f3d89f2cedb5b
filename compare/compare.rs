//! Compares the answers of two programs to one batch, record by record.
//!
//! It knows of a batch only that each record begins with its kind and its
//! length (FORMAT.md); what a right answer is it does not know. It shares no code
//! with the other programs.
//!
//! Build:  rustc -O --edition 2021 -D warnings compare.rs
//! Use:    compare BATCH PROVED_ANSWERS SECOND_ANSWERS LABEL
//!
//! For each of the first 20 differences it prints the record in hex and both
//! lines; at the end always `LABEL: N compared, M different`, where N counts
//! the records that have a line in both files. Exit status 1 if M is not 0,
//! if N is 0, or if either file has not exactly one line for each record, so
//! that a program which falls silent cannot pass; 2 if the arguments, a file
//! or the batch cannot be used.

use std::process::ExitCode;

const MOST_PRINTED: usize = 20;

/// The record at the front of a batch, head included, and what follows it; or
/// none if it isn't all there.
fn split(batch: &[u8]) -> Option<(&[u8], &[u8])> {
    let (head, _) = batch.split_first_chunk()?;
    let [_kind, length @ ..]: &[u8; 5] = head;
    let length = usize::try_from(u32::from_le_bytes(*length)).ok()?;
    batch.split_at_checked(head.len() + length)
}

fn records(batch: &[u8]) -> Result<Vec<&[u8]>, String> {
    let mut all = Vec::new();
    let mut left = batch;
    while !left.is_empty() {
        let place = batch.len() - left.len();
        let (record, rest) =
            split(left).ok_or_else(|| format!("record {} at byte {place} is cut short", all.len()))?;
        all.push(record);
        left = rest;
    }
    Ok(all)
}

/// Lines as bytes: an answer that is no text is a difference, not an error.
fn lines(answers: &[u8]) -> Vec<&[u8]> {
    let mut all: Vec<&[u8]> = answers.split(|&b| b == b'\n').collect();
    // What follows the last line's end is no line unless something is there.
    if all.last().is_some_and(|rest| rest.is_empty()) {
        all.pop();
    }
    all
}

fn hex(bytes: &[u8]) -> String {
    bytes.iter().map(|b| format!("{b:02x}")).collect()
}

fn load(path: &str) -> Result<Vec<u8>, String> {
    std::fs::read(path).map_err(|fault| format!("{path}: {fault}"))
}

/// Whether the two programs agree on the whole batch.
fn run() -> Result<bool, String> {
    let arguments: Vec<String> = std::env::args().skip(1).collect();
    let [batch, proved, second, label] = arguments.as_slice() else {
        return Err("give the batch, two files of answers, and a label".to_string());
    };
    let (batch, proved, second) = (load(batch)?, load(proved)?, load(second)?);
    let records = records(&batch)?;
    let (proved, second) = (lines(&proved), lines(&second));

    let mut compared = 0;
    let mut different = 0;
    for (number, ((record, ours), theirs)) in records.iter().zip(&proved).zip(&second).enumerate() {
        compared += 1;
        if ours == theirs {
            continue;
        }
        different += 1;
        if different <= MOST_PRINTED {
            println!("record {number}: {}", hex(record));
            println!("  proved: {}", String::from_utf8_lossy(ours));
            println!("  second: {}", String::from_utf8_lossy(theirs));
        }
    }
    if different > MOST_PRINTED {
        println!("{} more not printed", different - MOST_PRINTED);
    }
    let complete = proved.len() == records.len() && second.len() == records.len();
    if !complete {
        let (proved, second) = (proved.len(), second.len());
        println!("{} records, but {proved} lines proved and {second} lines second", records.len());
    }
    println!("{label}: {compared} compared, {different} different");
    Ok(complete && different == 0 && compared > 0)
}

fn main() -> ExitCode {
    match run() {
        Ok(true) => ExitCode::SUCCESS,
        Ok(false) => ExitCode::from(1),
        Err(fault) => {
            eprintln!("compare: {fault}");
            ExitCode::from(2)
        }
    }
}
