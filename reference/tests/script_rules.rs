//! Script and listing: each rule at its limit.

mod common;

use cards_reference::script::{listing_of, run};
use cards_reference::scripts::{arrange, names_line, orders};
use common::{answers, last_answer, NAMES};
use std::io::{self, ErrorKind, Read};

const HEADING: &str = "line answer value\n";

fn listing(script: &[u8]) -> String {
    String::from_utf8(listing_of(script)).expect("a listing is text")
}

/// Whether a line after a good setup and release is malformed.
fn malformed(line: &str) -> bool {
    last_answer(&["setup 2 2 -", "release 0 1 1", line]) == "refused 11"
}

#[test]
fn names_in_each_order() {
    let lines = ["setup 2 2 -", "release 0 7 100", "begin 0 - -", "write 0 1 9", "read 0 1 -"];
    let expected = "2 ready -\n3 running -\n4 begun 0\n5 written -\n6 value 9\n";
    assert_eq!(orders().len(), 24);
    for order in orders() {
        let mut script = names_line(order);
        for line in lines {
            let mut fields = line.split(' ').map(str::to_string);
            let fields = std::array::from_fn(|_| fields.next().expect("four fields"));
            script.push(b'\n');
            script.extend(arrange(order, &fields));
        }
        assert_eq!(listing(&script), format!("{HEADING}{expected}"));
    }
}

#[test]
fn bad_names_line_ends_the_run() {
    let bad = [
        "",
        "\n",
        "\ncall core card value\nsetup 1 1 -\n",
        "call core card\nsetup 1 1 -\n",
        "call core card value value\nsetup 1 1 -\n",
        "call core card card\nsetup 1 1 -\n",
        "call core card values\nsetup 1 1 -\n",
        "call core card value \nsetup 1 1 -\n",
        " call core card value\nsetup 1 1 -\n",
        "call  core card value\nsetup 1 1 -\n",
        "call\tcore card value\nsetup 1 1 -\n",
        "Call core card value\nsetup 1 1 -\n",
        "call core card value\r\nsetup 1 1 -\n",
        "call core card value\0\nsetup 1 1 -\n",
        "call,core,card,value\nsetup 1 1 -\n",
        "setup 1 1 -\n",
    ];
    for script in bad {
        assert_eq!(listing(script.as_bytes()), format!("{HEADING}1 refused 11\n"), "{script:?}");
    }
    let long = format!("{NAMES}{}\nsetup 1 1 -\n", " ".repeat(100_000));
    assert_eq!(listing(long.as_bytes()), format!("{HEADING}1 refused 11\n"));
}

#[test]
fn names_alone_give_the_heading_alone() {
    assert_eq!(listing(NAMES.as_bytes()), HEADING);
    assert_eq!(listing(format!("{NAMES}\n").as_bytes()), HEADING);
}

#[test]
fn the_last_newline_may_be_missing() {
    let script = format!("{NAMES}\nsetup 1 1 -");
    let with = listing(format!("{script}\n").as_bytes());
    assert_eq!(listing(script.as_bytes()), with);
    assert_eq!(with, format!("{HEADING}2 ready -\n"));
}

#[test]
fn an_empty_line_is_malformed_and_the_next_is_read() {
    let script = format!("{NAMES}\n\nsetup 1 1 -\n\n");
    let expected = "2 refused 11\n3 ready -\n4 refused 11\n";
    assert_eq!(listing(script.as_bytes()), format!("{HEADING}{expected}"));
}

#[test]
fn lines_of_64_and_65_bytes_and_far_more() {
    for length in [63, 64, 65, 66, 65_535, 65_536, 65_537, 1_000_000] {
        let long = format!("begin 0 - {}", "-".repeat(length - 10));
        assert_eq!(long.len(), length);
        let lines = ["setup 1 1 -", "release 0 1 1", &long, "begin 0 - -"];
        assert_eq!(answers(&lines)[2..], ["refused 11", "begun 0"], "{length}");
        let call_in_front = format!("begin 0 - -{}", " ".repeat(length - 11));
        assert!(malformed(&call_in_front));
    }
}

#[test]
fn job_numbers() {
    assert_eq!(last_answer(&["setup 1 1 -", "release 0 65535 1"]), "running -");
    for job in ["65536", "131071", "4294967295"] {
        assert!(malformed(&format!("release 0 {job} 1")));
    }
    let finished = ["setup 1 1 -", "release 0 65535 1", "finish 0 - -"];
    assert_eq!(last_answer(&finished), "finished 65535");
}

#[test]
fn numbers_up_to_the_limit() {
    for fits in [
        "setup 4294967295 1 -",
        "setup 1 4294967295 -",
        "release 0 1 4294967295",
        "release 4294967295 1 1",
        "begin 4294967295 - -",
        "read 4294967295 4294967295 -",
        "write 4294967295 4294967295 4294967295",
        "commit 4294967295 - -",
        "giveup 99 - -",
        "finish 17 - -",
    ] {
        assert!(!malformed(fits), "{fits}");
        for (limit, over) in [
            ("4294967295", "4294967296"),
            ("4294967295", "42949672950"),
            ("4294967295", "18446744073709551615"),
            ("4294967295", "18446744073709551617"),
        ] {
            assert!(!fits.contains(limit) || malformed(&fits.replacen(limit, over, 1)));
        }
    }
    assert_eq!(last_answer(&["setup 4294967295 1 -"]), "refused 1");
    assert_eq!(last_answer(&["setup 1 1 -", "read 99 0 -"]), "refused 4");
}

const MALFORMED: &[&str] = &[
    " begin 0 - -",
    "begin 0 - - ",
    "begin  0 - -",
    "begin\t0 - -",
    "begin 0 - -\r",
    "begin 0 - -\0",
    "\0begin 0 - -",
    "begin 0 -",
    "begin 0 - - -",
    "begin",
    " ",
    "   ",
    "- - - -",
    "begin 00 - -",
    "begin 01 - -",
    "begin +0 - -",
    "begin -0 - -",
    "begin 0x0 - -",
    "begin 1e0 - -",
    "begin 0. - -",
    "begin - - -",
    "begin 0 0 -",
    "begin 0 - 0",
    "begin 0 -- -",
    "Begin 0 - -",
    "BEGIN 0 - -",
    "begins 0 - -",
    "begi 0 - -",
    "give 0 - -",
    "give_up 0 - -",
    "set up 1 1",
    "setup 1 - -",
    "setup - 1 -",
    "setup 1 1 1",
    "setup 1 1",
    "release 0 1 -",
    "release 0 - 1",
    "release - 1 1",
    "release 0 01 1",
    "release 0 1 01",
    "read 0 - -",
    "read 0 0 0",
    "read - 0 -",
    "write 0 0 -",
    "write 0 - 1",
    "write 0 0 +5",
    "write 0 0 05",
    "write 0 0 -5",
    "write 0 0 5\u{a0}",
    "write 0 0 \u{665}",
    "commit 0 0 -",
    "commit 0 - 0",
    "giveup 0 0 -",
    "giveup 0 - 0",
    "finish 0 0 -",
    "finish 0 - 0",
];

#[test]
fn malformed_lines() {
    for line in MALFORMED {
        assert!(malformed(line), "{line:?}");
    }
    assert!(!malformed("begin 0 - -"));
}

#[test]
fn bytes_that_are_no_text() {
    let mut script = format!("{NAMES}\n").into_bytes();
    script.extend(b"setup 1 1 \xff\n\xc3\x28\nsetup 1 1 -\n");
    let expected = "2 refused 11\n3 refused 11\n4 ready -\n";
    assert_eq!(listing(&script), format!("{HEADING}{expected}"));
}

#[test]
fn the_record_is_blank_before_setup_and_after_a_refused_one() {
    let lines = [
        "begin 0 - -",
        "read 99 0 -",
        "setup 1 1 -",
        "release 0 1 1",
        "setup 0 1 -",
        "begin 0 - -",
        "finish 0 - -",
        "setup 1 1 -",
        "begin 0 - -",
    ];
    let expected = [
        "refused 2",
        "refused 2",
        "ready -",
        "running -",
        "refused 1",
        "refused 2",
        "refused 2",
        "ready -",
        "refused 7",
    ];
    assert_eq!(answers(&lines), expected);
}

/// The last listing lines of a script with so many empty lines after the names.
fn end_of_long(empty_lines: usize, last: &str) -> Vec<String> {
    let script = format!("{NAMES}\n{}{last}", "\n".repeat(empty_lines));
    let listing = listing(script.as_bytes());
    let lines: Vec<&str> = listing.lines().collect();
    lines[lines.len() - 2..].iter().map(|line| line.to_string()).collect()
}

#[test]
fn line_1_000_000_is_read_and_line_1_000_001_ends_the_run() {
    let read = ["999999 refused 11", "1000000 ready -"];
    assert_eq!(end_of_long(999_998, "setup 1 1 -"), read);
    assert_eq!(end_of_long(999_998, "setup 1 1 -\n"), read);
    let ended = ["1000000 refused 11", "1000001 refused 11"];
    assert_eq!(end_of_long(999_999, "setup 1 1 -"), ended);
    assert_eq!(end_of_long(999_999, "setup 1 1 -\n"), ended);
    assert_eq!(end_of_long(999_999, "\nsetup 1 1 -\nsetup 1 1 -\n"), ended);
    assert_eq!(end_of_long(1_000_000, ""), ended);
    assert_eq!(end_of_long(999_999, "")[1], "1000000 refused 11");
}

#[test]
fn a_line_without_end_needs_no_more_memory() {
    let start = format!("{NAMES}\nsetup 1 1 -\n");
    let long = io::repeat(b'7').take(30_000_000);
    let input = start.as_bytes().chain(long).chain(&b"\nsetup 2 2 -"[..]);
    let mut output = Vec::new();
    run(input, &mut output).expect("no read fails");
    let expected = format!("{HEADING}2 ready -\n3 refused 11\n4 ready -\n");
    assert_eq!(output, expected.as_bytes());
}

/// Gives one byte at a time, and is interrupted before each.
struct Slow<'a> {
    bytes: &'a [u8],
    interrupted: bool,
}

impl Read for Slow<'_> {
    fn read(&mut self, into: &mut [u8]) -> io::Result<usize> {
        self.interrupted = !self.interrupted;
        if self.interrupted {
            return Err(ErrorKind::Interrupted.into());
        }
        self.bytes.read(&mut into[..1])
    }
}

#[test]
fn chunks_of_one_byte_give_the_same_listing() {
    let script = include_bytes!("data/case_a.script");
    let slow = Slow { bytes: script, interrupted: false };
    let mut output = Vec::new();
    run(slow, &mut output).expect("an interrupted read is tried again");
    assert_eq!(output, listing_of(script));
}

/// Fails at once.
struct Failing;

impl Read for Failing {
    fn read(&mut self, _: &mut [u8]) -> io::Result<usize> {
        Err(ErrorKind::PermissionDenied.into())
    }
}

#[test]
fn a_failed_read_is_told() {
    let input = format!("{NAMES}\nsetup 1 1 -\n");
    let mut output = Vec::new();
    let error = run(input.as_bytes().chain(Failing), &mut output).expect_err("the read failed");
    assert_eq!(error.kind(), ErrorKind::PermissionDenied);
    assert_eq!(output, format!("{HEADING}2 ready -\n").as_bytes());
}
