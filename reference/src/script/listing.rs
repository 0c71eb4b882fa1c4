//! Listing lines, and calls written as script lines.

use crate::answer::Answer;
use crate::call::Call;
use std::io::{self, Write};

/// The listing's heading.
pub const HEADING: &str = "line answer value";

/// The answer's word, and the number under value if there is one.
pub fn listed(answer: Answer) -> (&'static str, Option<u32>) {
    match answer {
        Answer::Ready => ("ready", None),
        Answer::Running => ("running", None),
        Answer::Queued => ("queued", None),
        Answer::Begun(ticket) => ("begun", Some(ticket)),
        Answer::Value { value, .. } => ("value", Some(value)),
        Answer::Written => ("written", None),
        Answer::Waits { core } => ("waits", Some(core)),
        Answer::Committed(aborts) => ("committed", Some(aborts)),
        Answer::SetBack => ("setback", None),
        Answer::Ended => ("ended", None),
        Answer::Finished(job) => ("finished", Some(u32::from(job))),
        Answer::Refused(number) => ("refused", Some(number)),
    }
}

/// Writes one listing line: line number, answer, value.
pub fn write_answer(output: &mut impl Write, line: u32, answer: Answer) -> io::Result<()> {
    match listed(answer) {
        (word, Some(value)) => writeln!(output, "{line} {word} {value}"),
        (word, None) => writeln!(output, "{line} {word} -"),
    }
}

/// The call's fields in the order call, core, card, value.
pub fn print_call(call: Call) -> [String; 4] {
    let dash = || "-".to_string();
    let (word, core, card, value) = match call {
        Call::Setup { cores, objects } => ("setup", cores, objects.to_string(), dash()),
        Call::Release { core, job, deadline } => {
            ("release", core, job.to_string(), deadline.to_string())
        }
        Call::Begin { core } => ("begin", core, dash(), dash()),
        Call::Read { core, object } => ("read", core, object.to_string(), dash()),
        Call::Write { core, object, value } => {
            ("write", core, object.to_string(), value.to_string())
        }
        Call::Commit { core } => ("commit", core, dash(), dash()),
        Call::GiveUp { core } => ("giveup", core, dash(), dash()),
        Call::Finish { core } => ("finish", core, dash(), dash()),
    };
    [word.to_string(), core.to_string(), card, value]
}
