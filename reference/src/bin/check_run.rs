//! `check-run LISTING`: judges the runs of a script on standard input and its
//! listing, a file, by demands 2 and 3 and by the reference's own answers.
//! `check-run --seed S [--count N]`: judges the reference's own contended runs.
//! Ends with status 1 if anything is broken.

#![forbid(unsafe_code)]

use cards_reference::checker::{check, Nearest, Report};
use cards_reference::contended::Contention;
use cards_reference::listed_runs::{listed_runs, ListedRun};
use cards_reference::machine::Machine;
use cards_reference::replay::first_difference;
use std::io::{self, Read};
use std::process::ExitCode;

const USAGE: &str = "usage: check-run LISTING < SCRIPT, or check-run --seed S [--count N]";

/// Calls in each run made by seed.
const CALLS: usize = 2_000;

/// What was judged so far.
#[derive(Default)]
struct Tally {
    runs: usize,
    calls: usize,
    broken: usize,
    nearest: Option<Nearest>,
}

impl Tally {
    fn add(&mut self, calls: usize, report: &Report) {
        self.runs += 1;
        self.calls += calls;
        self.broken += report.broken.len();
        if let Some(nearest) = report.nearest {
            self.nearest = Some(self.nearest.map_or(nearest, |old| old.nearer(nearest)));
        }
    }

    fn print(&self) -> ExitCode {
        let Tally { runs, calls, broken, .. } = self;
        println!("checked {runs} runs ({calls} calls), {broken} claims broken");
        if let Some(nearest) = self.nearest {
            let Nearest { rounds, bound } = nearest;
            let ratio = nearest.ratio();
            println!("nearest to the bound: {rounds} of {bound} rounds ({ratio:.4})");
        }
        ExitCode::from(u8::from(*broken > 0))
    }
}

/// Judges one run of a listing, and names the lines at fault.
fn judge_listed(listed: &ListedRun, tally: &mut Tally) {
    let report = check(&listed.run);
    for broken in &report.broken {
        println!("line {}: {broken}", listed.lines[broken.call]);
    }
    tally.add(listed.run.steps.len(), &report);
    if let Some(call) = first_difference(&listed.run) {
        println!("line {}: not the rule's answer", listed.lines[call]);
        tally.broken += 1;
    }
}

fn judge_file(listing: &str) -> io::Result<ExitCode> {
    let mut script = Vec::new();
    io::stdin().lock().read_to_end(&mut script)?;
    let listing = std::fs::read(listing)?;
    let runs = match listed_runs(&script, &listing) {
        Ok(runs) => runs,
        Err(message) => {
            println!("{message}");
            return Ok(ExitCode::from(1));
        }
    };
    let mut tally = Tally::default();
    for run in &runs {
        judge_listed(run, &mut tally);
    }
    Ok(tally.print())
}

fn judge_seeds(first: u64, count: u64) -> ExitCode {
    let mut tally = Tally::default();
    for seed in first..first.saturating_add(count) {
        let run = Contention::new(seed).run(&mut Machine::blank(), CALLS);
        let report = check(&run);
        for broken in &report.broken {
            println!("seed {seed}, call {}: {broken}", broken.call);
        }
        tally.add(run.steps.len(), &report);
    }
    tally.print()
}

fn main() -> ExitCode {
    let arguments: Vec<String> = std::env::args().skip(1).collect();
    let words: Vec<&str> = arguments.iter().map(String::as_str).collect();
    let done = match words.as_slice() {
        ["--seed", seed] => seed.parse().ok().map(|seed| Ok(judge_seeds(seed, 1))),
        ["--seed", seed, "--count", count] => match (seed.parse(), count.parse()) {
            (Ok(seed), Ok(count)) => Some(Ok(judge_seeds(seed, count))),
            _ => None,
        },
        [listing] => Some(judge_file(listing)),
        _ => None,
    };
    match done {
        Some(Ok(status)) => status,
        Some(Err(error)) => {
            eprintln!("check-run: {error}");
            ExitCode::from(2)
        }
        None => {
            eprintln!("{USAGE}");
            ExitCode::from(2)
        }
    }
}
