//! Compares whole reports: runs two report programs on each stored plan of a
//! batch of plans (FORMAT.md) and of further files.
//!
//! What a right report is it does not know. It shares no code with the other
//! programs.
//!
//! Build:  rustc -O --edition 2021 -D warnings compare_reports.rs
//! Use:    compare_reports PROVED SECOND BATCH [PLAN ...]
//!
//! PROVED and SECOND are command lines, words with spaces between them. Each
//! program is started anew for each plan and gets it through a pipe. It must
//! end with status 0, and both must print the same bytes. For each of the
//! first 3 differences both reports are printed, with the plan in hex; at the
//! end always one line that begins `reports: N plans`. Exit status 1 if there
//! is a difference, or if the plans fall short of what the comparison is for
//! (see `shortfalls`); 2 if the arguments, a file or a program cannot be used.

use std::collections::BTreeMap;
use std::io::Write;
use std::process::{Command, ExitCode, Output, Stdio};
use std::thread;

const MOST_PRINTED: usize = 3;
/// Of a plan that is far too long, the first bytes say enough.
const MOST_BYTES_PRINTED: usize = 400;

const LEAST_PLANS: usize = 1000;
/// Accepted plans of 32 nodes with 64 links.
const LEAST_FULL: usize = 100;
/// Accepted plans of at most 8 nodes.
const LEAST_SMALL: usize = 300;
/// Accepted plans with parallel links.
const LEAST_PARALLEL: usize = 250;
/// The reader of stored plans gives 1 to this.
const LAST_REFUSAL: usize = 8;

// ----------------------------------------------------------------- plans

fn plan_of_line(line: &str) -> Option<Vec<u8>> {
    let digits: Vec<u32> = line.chars().map(|digit| digit.to_digit(16)).collect::<Option<_>>()?;
    let byte = |pair: &[u32]| (pair.len() == 2).then(|| (16 * pair[0] + pair[1]) as u8);
    digits.chunks(2).map(byte).collect()
}

fn batch_plans(path: &str) -> Result<Vec<Vec<u8>>, String> {
    let text = std::fs::read_to_string(path).map_err(|fault| format!("{path}: {fault}"))?;
    let plan = |(number, line)| {
        plan_of_line(line).ok_or_else(|| format!("{path}: plan {number} is not in hex"))
    };
    text.lines().enumerate().map(plan).collect()
}

// --------------------------------------------------------------- reports

/// Runs a program on one plan.
fn report(command: &str, plan: &[u8]) -> Result<Output, String> {
    let mut words = command.split_whitespace();
    let program = words.next().ok_or("an empty command line")?;
    let mut child = Command::new(program)
        .args(words)
        .stdin(Stdio::piped())
        .stdout(Stdio::piped())
        .spawn()
        .map_err(|fault| format!("{program}: {fault}"))?;
    let mut input = child.stdin.take().expect("a pipe to the program");
    thread::scope(|scope| {
        // A program that has read enough may end before it has been given
        // all: then the rest cannot be written, and that is no fault.
        scope.spawn(move || input.write_all(plan));
        child.wait_with_output().map_err(|fault| format!("{program}: {fault}"))
    })
}

/// What a report is about, as its first line tells it; and whether it names a
/// link by its number, which only parallel links are.
enum About {
    Accepted { nodes: usize, links: usize, parallel: bool },
    Refused(usize),
}

fn about(report: &[u8]) -> Option<About> {
    let text = std::str::from_utf8(report).ok()?;
    match text.lines().next()?.split(' ').collect::<Vec<_>>()[..] {
        ["nodes", nodes, "links", links] => {
            let (nodes, links) = (nodes.parse().ok()?, links.parse().ok()?);
            Some(About::Accepted { nodes, links, parallel: text.contains('/') })
        }
        ["refused", number, "at", _] => Some(About::Refused(number.parse().ok()?)),
        _ => None,
    }
}

fn told(name: &str, output: &Output) -> String {
    format!("  {name}, {}:\n{}", output.status, String::from_utf8_lossy(&output.stdout))
}

/// What two reports agree on, or how they differ.
type Finding = Result<About, String>;

/// Runs both programs on one plan. If they fail alike, or print the same but
/// no report, that is a difference too.
fn compare(proved: &str, second: &str, plan: &[u8]) -> Result<Finding, String> {
    let (proved, second) = (report(proved, plan)?, report(second, plan)?);
    let alike = proved.stdout == second.stdout && proved.status.success() && second.status.success();
    let agreed = if alike { about(&proved.stdout) } else { None };
    Ok(agreed.ok_or_else(|| told("proved", &proved) + &told("second", &second)))
}

/// The findings on all plans, in order. The processors share the work: each
/// takes one plan out of as many as there are processors.
fn compare_all(proved: &str, second: &str, plans: &[Vec<u8>]) -> Result<Vec<Finding>, String> {
    let workers = thread::available_parallelism().map_or(1, |count| count.get());
    thread::scope(|scope| {
        let share = |first: usize| {
            let plans = plans.iter().skip(first).step_by(workers);
            scope.spawn(move || plans.map(|plan| compare(proved, second, plan)).collect::<Vec<_>>())
        };
        let shares: Vec<_> = (0..workers).map(share).collect();
        let mut findings: Vec<_> =
            shares.into_iter().map(|share| share.join().expect("a whole share").into_iter()).collect();
        (0..plans.len()).map(|number| findings[number % workers].next().expect("a finding")).collect()
    })
}

// -------------------------------------------------------------- counting

#[derive(Default)]
struct Tally {
    plans: usize,
    accepted: usize,
    full: usize,
    small: usize,
    parallel: usize,
    refused: BTreeMap<usize, usize>,
    different: usize,
}

impl Tally {
    fn count(&mut self, about: About) {
        match about {
            About::Accepted { nodes, links, parallel } => {
                self.accepted += 1;
                self.full += usize::from((nodes, links) == (32, 64));
                self.small += usize::from(nodes <= 8);
                self.parallel += usize::from(parallel);
            }
            About::Refused(number) => *self.refused.entry(number).or_default() += 1,
        }
    }

    fn line(&self) -> String {
        let Tally { plans, accepted, full, small, parallel, refused, different } = self;
        let told = |(number, count): (&usize, &usize)| format!("{number}: {count}");
        let numbers: Vec<String> = refused.iter().map(told).collect();
        format!(
            "reports: {plans} plans, {accepted} accepted ({full} of them 32 nodes with 64 links, \
             {small} of at most 8 nodes, {parallel} with parallel links), {} refused ({}), {different} different",
            refused.values().sum::<usize>(),
            numbers.join(", ")
        )
    }

    /// What there is too little of.
    fn shortfalls(&self) -> Vec<String> {
        let mut least = vec![
            ("plans".to_string(), self.plans, LEAST_PLANS),
            ("accepted plans of 32 nodes with 64 links".to_string(), self.full, LEAST_FULL),
            ("accepted plans of at most 8 nodes".to_string(), self.small, LEAST_SMALL),
            ("accepted plans with parallel links".to_string(), self.parallel, LEAST_PARALLEL),
        ];
        for number in 1..=LAST_REFUSAL {
            let count = self.refused.get(&number).copied().unwrap_or(0);
            least.push((format!("plans with refusal {number}"), count, 1));
        }
        let short = least.into_iter().filter(|(_, count, least)| count < least);
        short.map(|(what, count, least)| format!("{count} {what}, but at least {least} are due")).collect()
    }
}

fn hex(bytes: &[u8]) -> String {
    let shown = &bytes[..bytes.len().min(MOST_BYTES_PRINTED)];
    let more = if shown.len() < bytes.len() { " and so on" } else { "" };
    shown.iter().map(|byte| format!("{byte:02x}")).collect::<String>() + more
}

/// Whether the two programs agree on all plans, and these are enough.
fn run() -> Result<bool, String> {
    let arguments: Vec<String> = std::env::args().skip(1).collect();
    let [proved, second, batch, files @ ..] = arguments.as_slice() else {
        return Err("give two command lines and a batch; plans may follow".to_string());
    };
    let mut plans = batch_plans(batch)?;
    for file in files {
        plans.push(std::fs::read(file).map_err(|fault| format!("{file}: {fault}"))?);
    }

    let mut tally = Tally { plans: plans.len(), ..Tally::default() };
    for (number, finding) in compare_all(proved, second, &plans)?.into_iter().enumerate() {
        match finding {
            Ok(about) => tally.count(about),
            Err(difference) => {
                tally.different += 1;
                if tally.different <= MOST_PRINTED {
                    let plan = &plans[number];
                    print!("plan {number}, {} bytes: {}\n{difference}", plan.len(), hex(plan));
                }
            }
        }
    }
    let shortfalls = tally.shortfalls();
    for shortfall in &shortfalls {
        println!("{shortfall}");
    }
    println!("{}", tally.line());
    Ok(tally.different == 0 && shortfalls.is_empty())
}

fn main() -> ExitCode {
    match run() {
        Ok(true) => ExitCode::SUCCESS,
        Ok(false) => ExitCode::from(1),
        Err(fault) => {
            eprintln!("compare_reports: {fault}");
            ExitCode::from(2)
        }
    }
}
