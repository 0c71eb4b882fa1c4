//! The runs that a script and its listing show, for the checker. A run starts
//! after each accepted setup. A listing shows no version for a value.

use crate::answer::Answer;
use crate::call::Call;
use crate::checker::{Detail, Run};
use crate::refusal;
use crate::script::{parse_call, parse_names, HEADING, MAX_LINES};
use crate::sound::in_range;

/// A run and where it stands in the script.
pub struct ListedRun {
    pub run: Run,
    /// For each call its line number.
    pub lines: Vec<usize>,
}

/// The runs, or what is wrong with the listing.
pub fn listed_runs(script: &[u8], listing: &[u8]) -> Result<Vec<ListedRun>, String> {
    let script = lines(script);
    let listing = lines(listing);
    if listing.first() != Some(&HEADING.as_bytes()) {
        return Err("the listing has no heading".to_string());
    }
    let Some(names) = script.first().and_then(|line| parse_names(line)) else {
        return Ok(Vec::new());
    };
    let read = script.len().min(MAX_LINES as usize);
    let mut runs = Vec::new();
    for (place, line) in script[..read].iter().enumerate().skip(1) {
        let number = place + 1;
        let shown = listing.get(place).and_then(|shown| answer(number, shown));
        let shown = shown.ok_or(format!("line {number} is not listed"))?;
        match (parse_call(names, line), shown) {
            (None, MALFORMED) => {}
            (Some(call), shown) if shown != MALFORMED => take(&mut runs, number, call, shown)?,
            _ => return Err(format!("line {number} is not read as it should be")),
        }
    }
    Ok(runs)
}

const MALFORMED: Answer = Answer::Refused(refusal::MALFORMED_LINE);

/// Adds a call to the last run, or starts a new one.
fn take(runs: &mut Vec<ListedRun>, number: usize, call: Call, shown: Answer) -> Result<(), String> {
    match (call, shown, runs.last_mut()) {
        (Call::Setup { cores, objects }, Answer::Ready, _) if in_range(cores, objects) => {
            runs.push(start(cores, objects));
        }
        (Call::Setup { .. }, Answer::Refused(_), _) => runs.push(start(0, 0)),
        (Call::Setup { .. }, _, _) => {
            return Err(format!("line {number} is not answered as a setup"))
        }
        (_, _, Some(last)) => {
            last.run.steps.push((call, shown));
            last.lines.push(number);
        }
        (_, Answer::Refused(_), None) => {}
        (_, _, None) => return Err(format!("line {number} has no setup before it")),
    }
    Ok(())
}

/// A run without calls. After a refused setup it has no cores and no objects,
/// so that only refused calls fit.
fn start(cores: u32, objects: u32) -> ListedRun {
    ListedRun {
        run: Run {
            cores,
            objects,
            steps: Vec::new(),
            detail: Detail::Listed,
            tables: None,
            last_table: None,
        },
        lines: Vec::new(),
    }
}

fn lines(bytes: &[u8]) -> Vec<&[u8]> {
    let ended = |line: &[u8]| line.last() == Some(&b'\n');
    let parts = bytes.split_inclusive(|&byte| byte == b'\n');
    parts.map(|line| &line[..line.len() - usize::from(ended(line))]).collect()
}

/// The answer in a listing line of this number.
fn answer(number: usize, line: &[u8]) -> Option<Answer> {
    let text = std::str::from_utf8(line).ok()?;
    let rest = text.strip_prefix(&number.to_string())?.strip_prefix(' ')?;
    let (word, value) = rest.split_once(' ')?;
    let number = || value.parse::<u32>().ok();
    let dashed = |answer| (value == "-").then_some(answer);
    match word {
        "ready" => dashed(Answer::Ready),
        "running" => dashed(Answer::Running),
        "queued" => dashed(Answer::Queued),
        "begun" => number().map(Answer::Begun),
        "value" => number().map(|value| Answer::Value { value, version: 0 }),
        "written" => dashed(Answer::Written),
        "waits" => number().map(|core| Answer::Waits { core }),
        "committed" => number().map(Answer::Committed),
        "setback" => dashed(Answer::SetBack),
        "ended" => dashed(Answer::Ended),
        "finished" => value.parse().ok().map(Answer::Finished),
        "refused" => number().map(Answer::Refused),
        _ => None,
    }
}
