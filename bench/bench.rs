//! Measures `nightplan` against the second program: both as programs, on the
//! same stored plans. How to read what it prints: README.md.
//!
//! Build:  rustc -O --edition 2021 -D warnings bench.rs
//! Use:    bench NIGHTPLAN SECOND FOLDER PLAN ...
//!
//! NIGHTPLAN and SECOND are command lines, words with spaces between them;
//! callgrind's file is put into the folder. Nothing is measured before both
//! programs print the same report on every plan. Of the first plan it is told
//! where nightplan's instructions go. Exit status: 0 if all was measured; 1 if
//! two reports differ; 2 if the arguments, a file or a program cannot be used.

use std::collections::HashMap;
use std::fs::{self, File};
use std::path::Path;
use std::process::{Command, ExitCode};
use std::time::{Duration, Instant};

/// Odd, so that there is a run in the middle.
const RUNS: usize = 101;
const FUNCTIONS_TOLD: usize = 12;

/// Runs a command on a plan. What it prints is handed back.
fn run(words: &[&str], plan: &str) -> Result<Vec<u8>, String> {
    let [program, arguments @ ..] = words else {
        return Err("an empty command line".to_string());
    };
    let input = File::open(plan).map_err(|fault| format!("{plan}: {fault}"))?;
    let output = Command::new(program)
        .args(arguments)
        .stdin(input)
        .output()
        .map_err(|fault| format!("{program}: {fault}"))?;
    if !output.status.success() {
        let said = String::from_utf8_lossy(&output.stderr);
        return Err(format!("{program} on {plan}: {}\n{said}", output.status));
    }
    Ok(output.stdout)
}

// ---------------------------------------------------------- instructions

/// What callgrind has counted.
struct Profile {
    total: u64,
    /// By function, most first; what it calls is not counted with it.
    functions: Vec<(String, u64)>,
}

/// A function's name as callgrind's file gives it: a number, and the name
/// where the number is new. The levels of a recursion are one function here.
fn function<'a>(names: &mut HashMap<&'a str, &'a str>, given: &'a str) -> &'a str {
    let (number, name) = given.split_once(' ').unwrap_or((given, ""));
    let name = name.split_once('\'').map_or(name, |(name, _level)| name);
    if name.is_empty() { names[number] } else { names.entry(number).or_insert(name) }
}

/// Reads callgrind's file: lines of a place and a cost belong to the function
/// named last, except the one behind `calls=`, which is the callee's. None if
/// the costs do not add up to the total that the file gives.
fn profile(text: &str) -> Option<Profile> {
    let mut names: HashMap<&str, &str> = HashMap::new();
    let mut costs: HashMap<&str, u64> = HashMap::new();
    let mut current = "";
    let mut lines = text.lines();
    while let Some(line) = lines.next() {
        if let Some(given) = line.strip_prefix("fn=") {
            current = function(&mut names, given);
        } else if let Some(given) = line.strip_prefix("cfn=") {
            function(&mut names, given);
        } else if line.starts_with("calls=") {
            lines.next()?;
        } else if line.starts_with(|first: char| first.is_ascii_digit() || "+-*".contains(first)) {
            let cost: u64 = line.split(' ').nth(1)?.parse().ok()?;
            *costs.entry(current).or_default() += cost;
        }
    }
    let mut functions: Vec<(String, u64)> =
        costs.into_iter().map(|(name, cost)| (name.to_string(), cost)).collect();
    functions.sort_by(|one, other| (other.1, &one.0).cmp(&(one.1, &other.0)));
    let total = text.lines().find_map(|line| line.strip_prefix("totals: "))?.parse().ok()?;
    let adds_up = functions.iter().map(|(_, cost)| cost).sum::<u64>() == total;
    adds_up.then_some(Profile { total, functions })
}

fn count(words: &[&str], plan: &str, folder: &str) -> Result<Profile, String> {
    let file = format!("{folder}/callgrind.out");
    let option = format!("--callgrind-out-file={file}");
    run(&[&["valgrind", "--tool=callgrind", &option], words].concat(), plan)?;
    let text = fs::read_to_string(&file).map_err(|fault| format!("{file}: {fault}"))?;
    profile(&text).ok_or_else(|| format!("{file}: not what callgrind writes"))
}

// ------------------------------------------------------------------ time

fn median(mut times: Vec<Duration>) -> Duration {
    times.sort();
    times[times.len() / 2]
}

/// The median time of a whole run of each program. They take turns, so that
/// whatever else the machine does meets both.
fn times(programs: [&[&str]; 2], plan: &str) -> Result<[Duration; 2], String> {
    let mut taken = [Vec::new(), Vec::new()];
    for _ in 0..RUNS {
        for (words, taken) in programs.iter().zip(&mut taken) {
            let start = Instant::now();
            run(words, plan)?;
            taken.push(start.elapsed());
        }
    }
    Ok(taken.map(median))
}

// --------------------------------------------------------------- telling

fn name(plan: &str) -> &str {
    Path::new(plan).file_stem().and_then(|stem| stem.to_str()).unwrap_or(plan)
}

fn tell_head() {
    println!("plan        instructions, thousands       ratio   median time, microseconds    ratio");
    println!("             nightplan      second                 nightplan      second");
}

fn tell_row(plan: &str, counts: [u64; 2], times: [Duration; 2]) {
    let thousands = counts.map(|count| count / 1000);
    let microseconds = times.map(|time| time.as_micros());
    println!(
        "{:10}  {:10}  {:10}  {:8.2}   {:12}  {:10}  {:8.2}",
        name(plan),
        thousands[0],
        thousands[1],
        counts[0] as f64 / counts[1] as f64,
        microseconds[0],
        microseconds[1],
        times[0].as_secs_f64() / times[1].as_secs_f64()
    );
}

fn tell_functions(plan: &str, profile: &Profile) {
    println!("\nWhere the {} thousand instructions of nightplan on {} go:", profile.total / 1000, name(plan));
    for (name, cost) in profile.functions.iter().take(FUNCTIONS_TOLD) {
        let share = 100.0 * *cost as f64 / profile.total as f64;
        println!("{share:6.1} %  {:10} thousand  {name}", cost / 1000);
    }
}

/// Whether the reports were the same, and so anything was measured.
fn bench() -> Result<bool, String> {
    let arguments: Vec<String> = std::env::args().skip(1).collect();
    let [nightplan, second, folder, plans @ ..] = arguments.as_slice() else {
        return Err("give two command lines and a folder, then plans".to_string());
    };
    let nightplan: Vec<&str> = nightplan.split_whitespace().collect();
    let second: Vec<&str> = second.split_whitespace().collect();

    for plan in plans {
        if run(&nightplan, plan)? != run(&second, plan)? {
            println!("{plan}: the two reports differ; nothing is measured");
            return Ok(false);
        }
    }
    tell_head();
    let mut first: Option<(&str, Profile)> = None;
    for plan in plans {
        let (ours, theirs) = (count(&nightplan, plan, folder)?, count(&second, plan, folder)?);
        tell_row(plan, [ours.total, theirs.total], times([&nightplan, &second], plan)?);
        first.get_or_insert((plan, ours));
    }
    if let Some((plan, profile)) = first {
        tell_functions(plan, &profile);
    }
    Ok(true)
}

fn main() -> ExitCode {
    match bench() {
        Ok(true) => ExitCode::SUCCESS,
        Ok(false) => ExitCode::from(1),
        Err(fault) => {
            eprintln!("bench: {fault}");
            ExitCode::from(2)
        }
    }
}
