//! Compares two programs on many books and lists of payments: what they print, byte for byte, and that both end with status 0.

mod books;
mod crews;
mod damage;
mod draft;
mod inputs;
mod lists;
mod programs;
mod random;

use std::collections::BTreeMap;
use std::env;
use std::fs;
use std::io;
use std::path::PathBuf;
use std::process::ExitCode;
use std::sync::atomic::{AtomicU64, Ordering};
use std::thread;

use inputs::Input;
use programs::{run, Outcome, Scratch};

const USAGE: &str = "usage: compare PURSER REFERENCE COUNT SEED [FIRST]";

const WORKERS: usize = 2;

/// What is compared: two programs on so many inputs of a seed, from a first one on.
struct Plan {
    purser: PathBuf,
    reference: PathBuf,
    count: u64,
    seed: u64,
    first: u64,
    /// Where inputs with a difference are kept.
    kept: PathBuf,
}

/// How many inputs of each kind were compared, and how many gave a difference.
#[derive(Default)]
struct Tally {
    kinds: BTreeMap<&'static str, usize>,
    differences: usize,
}

/// Compares, and tells by the status whether there was a difference (1) or a program could not be run (2).
fn main() -> ExitCode {
    let Some(plan) = plan() else {
        eprintln!("{USAGE}");
        return ExitCode::from(2);
    };
    match compare_all(&plan) {
        Ok(tally) => {
            println!("{}", summary(&tally));
            ExitCode::from(u8::from(tally.differences > 0))
        }
        Err(error) => {
            eprintln!("compare: {error}");
            ExitCode::from(2)
        }
    }
}

/// Reads the command line.
fn plan() -> Option<Plan> {
    let arguments: Vec<String> = env::args().skip(1).collect();
    let (purser, reference, count, seed, first) = match arguments.as_slice() {
        [purser, reference, count, seed] => (purser, reference, count, seed, "0"),
        [purser, reference, count, seed, first] => (purser, reference, count, seed, first.as_str()),
        _ => return None,
    };
    Some(Plan {
        purser: purser.into(),
        reference: reference.into(),
        count: count.parse().ok()?,
        seed: seed.parse().ok()?,
        first: first.parse().ok()?,
        kept: env::temp_dir().join("purser-differences"),
    })
}

/// Shares the inputs out among the workers and puts their tallies together.
fn compare_all(plan: &Plan) -> io::Result<Tally> {
    let next = &AtomicU64::new(0);
    let tallies: Vec<io::Result<Tally>> = thread::scope(|scope| {
        let workers: Vec<_> = (0..WORKERS)
            .map(|worker| scope.spawn(move || work(plan, worker, next)))
            .collect();
        workers
            .into_iter()
            .map(|worker| {
                worker
                    .join()
                    .unwrap_or_else(|_| Err(io::Error::other("a worker broke off")))
            })
            .collect()
    });
    let mut all = Tally::default();
    for tally in tallies {
        let tally = tally?;
        all.differences += tally.differences;
        for (kind, count) in tally.kinds {
            *all.kinds.entry(kind).or_default() += count;
        }
    }
    Ok(all)
}

/// Compares one input after the other until none is left.
fn work(plan: &Plan, worker: usize, next: &AtomicU64) -> io::Result<Tally> {
    let scratch = Scratch::new(worker)?;
    let mut tally = Tally::default();
    loop {
        let taken = next.fetch_add(1, Ordering::Relaxed);
        if taken >= plan.count {
            return Ok(tally);
        }
        let number = plan.first.wrapping_add(taken);
        let input = inputs::input(plan.seed, number);
        *tally.kinds.entry(input.kind).or_default() += 1;
        if !agree(plan, number, &input, &scratch)? {
            tally.differences += 1;
        }
    }
}

/// Runs both programs on an input; a difference is told and the input kept.
fn agree(plan: &Plan, number: u64, input: &Input, scratch: &Scratch) -> io::Result<bool> {
    scratch.write(input)?;
    let purser = run(&plan.purser, input, scratch)?;
    let reference = run(&plan.reference, input, scratch)?;
    if purser == reference && purser.status == Some(0) {
        return Ok(true);
    }
    let kept = keep(plan, number, input)?;
    eprintln!(
        "input {number} of seed {} ({}), kept as {}: {}",
        plan.seed,
        input.kind,
        kept.display(),
        difference(&purser, &reference)
    );
    Ok(false)
}

/// Writes an input into the folder of differences.
fn keep(plan: &Plan, number: u64, input: &Input) -> io::Result<PathBuf> {
    fs::create_dir_all(&plan.kept)?;
    let name = format!("{}-{number}", plan.seed);
    let book = plan.kept.join(format!("{name}.book"));
    fs::write(&book, &input.book)?;
    if let Some(payments) = &input.payments {
        fs::write(plan.kept.join(format!("{name}.payments")), payments)?;
    }
    Ok(book)
}

/// Says where two outcomes differ first.
fn difference(purser: &Outcome, reference: &Outcome) -> String {
    let status = format!("status {:?} and {:?}", purser.status, reference.status);
    if purser.text == reference.text {
        return status;
    }
    let (ours, theirs) = (lines(purser), lines(reference));
    let same = ours
        .iter()
        .zip(&theirs)
        .take_while(|(first, second)| first == second)
        .count();
    let say = |lines: &[&[u8]]| {
        lines.get(same).map_or("its end".to_string(), |line| {
            format!("{:?}", String::from_utf8_lossy(line))
        })
    };
    format!(
        "{status}; at line {same} purser has {}, reference has {}",
        say(&ours),
        say(&theirs)
    )
}

/// The lines of a text, each with its end.
fn lines(outcome: &Outcome) -> Vec<&[u8]> {
    outcome
        .text
        .split_inclusive(|&byte| byte == b'\n')
        .collect()
}

/// The line that is printed at the end.
fn summary(tally: &Tally) -> String {
    let inputs: usize = tally.kinds.values().sum();
    let kinds: Vec<String> = tally
        .kinds
        .iter()
        .map(|(kind, count)| format!("{count} {kind}"))
        .collect();
    format!(
        "{inputs} inputs, {} differences ({})",
        tally.differences,
        kinds.join(", ")
    )
}
