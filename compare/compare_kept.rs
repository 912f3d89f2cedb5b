//! Holds the proved programs against themselves: plans that were reported
//! before a change must have the same report after it, and the codec must read
//! the same network and write the same bytes.
//!
//! What a right report is it does not know. It shares no code with the other
//! programs.
//!
//! Build:  rustc -O --edition 2021 -D warnings compare_kept.rs
//! Use:    compare_kept keep NIGHTPLAN CODEC BATCH [PLAN ...] > KEPT
//!         compare_kept check NIGHTPLAN CODEC KEPT BATCH [PLAN ...]
//!
//! NIGHTPLAN and CODEC are command lines, words with spaces between them. BATCH
//! is a batch of plans (FORMAT.md); more plans may follow, each in a file.
//! NIGHTPLAN is started anew for each plan. CODEC is started once, and answers
//! a record of kind P for each plan that is accepted.
//!
//! KEPT has a first line that says what it is, and how many plans follow. Then
//! a line for each plan: its number in the batch, or the name of its file; and
//! in 16 hex digits the 64-bit FNV-1a hashes of its bytes, of its report and of
//! the codec's answer line, or `-` in place of the last if it is refused. Plans
//! with refusal 7 are not kept: when parallel links came, the rule for them
//! changed.
//!
//! `check` prints the first 3 differences, and always one line that begins
//! `kept: N plans`. Exit status 1 if there is a difference, a plan is no longer
//! the one that was kept, or fewer plans are checked than were kept; 2 if the
//! arguments, a file or a program cannot be used.

use std::collections::HashMap;
use std::io::Write;
use std::process::{Command, ExitCode, Stdio};
use std::thread;

const MOST_PRINTED: usize = 3;
const REFUSED: &[u8] = b"refused ";
/// How a report begins whose plan is not kept.
const NOT_KEPT: &[u8] = b"refused 7 ";
/// In place of the hash of an answer of the codec.
const NO_ANSWER: &str = "-";

// ----------------------------------------------------------------- plans

/// A plan of the corpus, by its number in the batch or its file's name.
struct Plan {
    name: String,
    bytes: Vec<u8>,
}

fn plan_of_line(line: &str) -> Option<Vec<u8>> {
    let digits: Vec<u32> = line.chars().map(|digit| digit.to_digit(16)).collect::<Option<_>>()?;
    let byte = |pair: &[u32]| (pair.len() == 2).then(|| (16 * pair[0] + pair[1]) as u8);
    digits.chunks(2).map(byte).collect()
}

fn load(path: &str) -> Result<Vec<u8>, String> {
    std::fs::read(path).map_err(|fault| format!("{path}: {fault}"))
}

fn text_of(path: &str) -> Result<String, String> {
    String::from_utf8(load(path)?).map_err(|fault| format!("{path}: {fault}"))
}

fn corpus(batch: &str, files: &[String]) -> Result<Vec<Plan>, String> {
    let mut plans = Vec::new();
    for (number, line) in text_of(batch)?.lines().enumerate() {
        let bytes = plan_of_line(line).ok_or_else(|| format!("{batch}: plan {number} is not in hex"))?;
        plans.push(Plan { name: number.to_string(), bytes });
    }
    for file in files {
        let name = file.rsplit('/').next().unwrap_or(file).to_string();
        plans.push(Plan { name, bytes: load(file)? });
    }
    Ok(plans)
}

fn hash(bytes: &[u8]) -> String {
    let mix = |hash: u64, &byte: &u8| (hash ^ u64::from(byte)).wrapping_mul(0x0000_0100_0000_01B3);
    format!("{:016x}", bytes.iter().fold(0xCBF2_9CE4_8422_2325, mix))
}

// -------------------------------------------------------------- programs

/// What a program prints for this input. It must end with status 0.
fn output(command: &str, input: &[u8]) -> Result<Vec<u8>, String> {
    let mut words = command.split_whitespace();
    let program = words.next().ok_or("an empty command line")?;
    let mut child = Command::new(program)
        .args(words)
        .stdin(Stdio::piped())
        .stdout(Stdio::piped())
        .spawn()
        .map_err(|fault| format!("{program}: {fault}"))?;
    let mut pipe = child.stdin.take().expect("a pipe to the program");
    let output = thread::scope(|scope| {
        // A program that has read enough may end before it has been given
        // all: then the rest cannot be written, and that is no fault.
        scope.spawn(move || pipe.write_all(input));
        child.wait_with_output().map_err(|fault| format!("{program}: {fault}"))
    })?;
    if output.status.success() {
        Ok(output.stdout)
    } else {
        Err(format!("{command}: {}", output.status))
    }
}

/// The reports on all plans, in order. The processors share the work: each
/// takes one plan out of as many as there are processors.
fn reports(nightplan: &str, plans: &[&Plan]) -> Result<Vec<Vec<u8>>, String> {
    let workers = thread::available_parallelism().map_or(1, |count| count.get());
    thread::scope(|scope| {
        let share = |first: usize| {
            let plans = plans.iter().skip(first).step_by(workers);
            scope.spawn(move || plans.map(|plan| output(nightplan, &plan.bytes)).collect::<Vec<_>>())
        };
        let shares: Vec<_> = (0..workers).map(share).collect();
        let mut reports: Vec<_> =
            shares.into_iter().map(|share| share.join().expect("a whole share").into_iter()).collect();
        (0..plans.len()).map(|number| reports[number % workers].next().expect("a report")).collect()
    })
}

/// The codec's answer lines to these plans, in order.
fn answers(codec: &str, plans: &[&Plan]) -> Result<Vec<Vec<u8>>, String> {
    let record = |plan: &&Plan| [&b"P"[..], &(plan.bytes.len() as u32).to_le_bytes(), &plan.bytes].concat();
    let batch: Vec<u8> = plans.iter().flat_map(record).collect();
    let printed = output(codec, &batch)?;
    let lines: Vec<Vec<u8>> = printed.split(|&byte| byte == b'\n').map(<[u8]>::to_vec).collect();
    // Each line is ended, and nothing follows the last.
    match lines.split_last() {
        Some((last, lines)) if last.is_empty() && lines.len() == plans.len() => Ok(lines.to_vec()),
        _ => Err(format!("{codec}: not a line for each of {} plans", plans.len())),
    }
}

// ------------------------------------------------------------------ kept

/// One line of the file.
#[derive(PartialEq)]
struct Kept {
    name: String,
    plan: String,
    report: String,
    answer: String,
}

impl Kept {
    fn line(&self) -> String {
        format!("{} {} {} {}", self.name, self.plan, self.report, self.answer)
    }

    fn of_line(line: &str) -> Option<Kept> {
        let [name, plan, report, answer] = line.split(' ').collect::<Vec<_>>()[..] else {
            return None;
        };
        let [name, plan, report, answer] = [name, plan, report, answer].map(str::to_string);
        Some(Kept { name, plan, report, answer })
    }
}

/// What the programs say of these plans now.
fn now(nightplan: &str, codec: &str, plans: &[&Plan]) -> Result<Vec<(Kept, Vec<u8>)>, String> {
    let reports = reports(nightplan, plans)?;
    let both = plans.iter().zip(&reports);
    let accepted: Vec<&Plan> =
        both.filter(|(_, report)| !report.starts_with(REFUSED)).map(|(plan, _)| *plan).collect();
    let mut answers = answers(codec, &accepted)?.into_iter();
    let mut all = Vec::new();
    for (plan, report) in plans.iter().zip(reports) {
        let refused = report.starts_with(REFUSED);
        let answer = if refused { None } else { answers.next() };
        let kept = Kept {
            name: plan.name.clone(),
            plan: hash(&plan.bytes),
            report: hash(&report),
            answer: answer.map_or(NO_ANSWER.to_string(), |line| hash(&line)),
        };
        all.push((kept, report));
    }
    Ok(all)
}

fn keep(nightplan: &str, codec: &str, plans: &[Plan]) -> Result<(), String> {
    let mut all = now(nightplan, codec, &plans.iter().collect::<Vec<_>>())?;
    all.retain(|(_, report)| !report.starts_with(NOT_KEPT));
    println!(
        "# {} plans before L5, by compare_kept keep, from `generate reports 1 1300` and plans/: \
         number or file, hashes of plan, report and codec's answer",
        all.len()
    );
    for (kept, _) in all {
        println!("{}", kept.line());
    }
    Ok(())
}

/// The lines of the file, and how many there were when they were kept.
fn read_kept(path: &str) -> Result<(usize, Vec<Kept>), String> {
    let text = text_of(path)?;
    let mut lines = text.lines();
    let head = lines.next().and_then(|head| head.strip_prefix("# "));
    let count = head.and_then(|head| head.split(' ').next()?.parse().ok());
    let count = count.ok_or_else(|| format!("{path}: the first line tells no count"))?;
    let kept = lines.map(|line| Kept::of_line(line).ok_or_else(|| format!("{path}: no kept plan: {line}")));
    Ok((count, kept.collect::<Result<_, _>>()?))
}

/// What a report is about.
fn first_line(report: &[u8]) -> String {
    String::from_utf8_lossy(report).lines().next().unwrap_or("no report").to_string()
}

/// What is no longer as it was kept, if anything.
fn difference(kept: &Kept, now: &Kept) -> Option<&'static str> {
    if kept.plan != now.plan {
        Some("is another plan")
    } else if kept.report != now.report {
        Some("has another report")
    } else if kept.answer != now.answer {
        Some("is read or written in another way")
    } else {
        None
    }
}

/// Whether all that was kept is as it was.
fn check(nightplan: &str, codec: &str, kept: &str, plans: &[Plan]) -> Result<bool, String> {
    let (count, kept) = read_kept(kept)?;
    let by_name: HashMap<&str, &Plan> = plans.iter().map(|plan| (plan.name.as_str(), plan)).collect();
    let (there, gone): (Vec<&Kept>, Vec<&Kept>) =
        kept.iter().partition(|kept| by_name.contains_key(kept.name.as_str()));
    let found: Vec<&Plan> = there.iter().map(|kept| by_name[kept.name.as_str()]).collect();

    let mut differences: Vec<String> =
        gone.iter().map(|kept| format!("plan {} is no longer there", kept.name)).collect();
    for (kept, (now, report)) in there.iter().zip(now(nightplan, codec, &found)?) {
        if let Some(what) = difference(kept, &now) {
            let (was, is, first) = (kept.line(), now.line(), first_line(&report));
            differences.push(format!("plan {} {what}\n  kept: {was}\n  now:  {is}: {first}", kept.name));
        }
    }
    for difference in differences.iter().take(MOST_PRINTED) {
        println!("{difference}");
    }
    if found.len() < count {
        println!("{count} plans were kept, but {} are checked", found.len());
    }
    let refused = there.iter().filter(|kept| kept.answer == NO_ANSWER).count();
    println!(
        "kept: {} plans, {} accepted, {refused} refused, {} different",
        found.len(),
        found.len() - refused,
        differences.len()
    );
    Ok(differences.is_empty() && found.len() >= count && count > 0)
}

fn run() -> Result<bool, String> {
    let arguments: Vec<String> = std::env::args().skip(1).collect();
    let words: Vec<&str> = arguments.iter().map(String::as_str).collect();
    match words[..] {
        ["keep", nightplan, codec, batch, ..] => {
            keep(nightplan, codec, &corpus(batch, &arguments[4..])?)?;
            Ok(true)
        }
        ["check", nightplan, codec, kept, batch, ..] => {
            check(nightplan, codec, kept, &corpus(batch, &arguments[5..])?)
        }
        _ => Err("give keep or check, two command lines, for check the kept file, and a batch".to_string()),
    }
}

fn main() -> ExitCode {
    match run() {
        Ok(true) => ExitCode::SUCCESS,
        Ok(false) => ExitCode::from(1),
        Err(fault) => {
            eprintln!("compare_kept: {fault}");
            ExitCode::from(2)
        }
    }
}
