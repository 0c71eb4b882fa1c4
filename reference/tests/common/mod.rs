//! What the tests share.

#![allow(dead_code)]

use cards_reference::answer::Answer;
use cards_reference::call::Call;
use cards_reference::machine::Machine;
use cards_reference::script::{listing_of, parse_call, parse_names};

/// The names line that the tests write.
pub const NAMES: &str = "call core card value";

/// Begun in the order 3, 2, 5, 0, 4, 1. Cores 2, 5 and 0 are in the way of 4; 3
/// is earlier and touches another card; 1 is later and in conflict too.
pub const CROWD: [&str; 20] = [
    "setup 7 2 -",
    "release 0 1 1",
    "release 1 1 1",
    "release 2 1 1",
    "release 3 1 1",
    "release 4 1 1",
    "release 5 1 1",
    "begin 3 - -",
    "begin 2 - -",
    "begin 5 - -",
    "begin 0 - -",
    "begin 4 - -",
    "begin 1 - -",
    "write 3 1 9",
    "read 2 0 -",
    "write 5 0 9",
    "read 0 0 -",
    "write 4 0 9",
    "read 4 0 -",
    "write 1 0 9",
];

/// The listing lines of these script lines, without heading and line numbers.
pub fn answers(lines: &[&str]) -> Vec<String> {
    let script = format!("{NAMES}\n{}\n", lines.join("\n"));
    let listing = String::from_utf8(listing_of(script.as_bytes())).expect("a listing is text");
    let answer = |line: &str| line.split_once(' ').map(|(_, answer)| answer.to_string());
    listing.lines().skip(1).filter_map(answer).collect()
}

/// The last listing line of these script lines.
pub fn last_answer(lines: &[&str]) -> String {
    answers(lines).pop().expect("a script with lines has answers")
}

/// The call that a script line makes.
pub fn call(line: &str) -> Call {
    let names = parse_names(NAMES.as_bytes()).expect("good names");
    parse_call(names, line.as_bytes()).expect("a good line")
}

/// A machine after these script lines, none of which may be refused.
pub fn machine(lines: &[&str]) -> Machine {
    let mut machine = Machine::blank();
    for line in lines {
        let answer = machine.call(call(line));
        assert!(!matches!(answer, Answer::Refused(_)), "{line}: {answer:?}");
    }
    machine
}
