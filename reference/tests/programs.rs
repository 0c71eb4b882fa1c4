//! The programs, run as a user runs them.

use cards_reference::choices::count_lines;
use cards_reference::script::listing_of;
use cards_reference::scripts::quick_script;
use cards_reference::sheet::{MAX_BYTES, SHIPPED};
use cards_reference::sheets::sheet;
use std::io::Write;
use std::process::{Command, Output, Stdio};

const REFERENCE: &str = env!("CARGO_BIN_EXE_cards-reference");
const LEVELS: &str = env!("CARGO_BIN_EXE_levels-reference");
const COMPARE: &str = env!("CARGO_BIN_EXE_compare");
const MAKE_SCRIPT: &str = env!("CARGO_BIN_EXE_make-script");
const MAKE_SHEET: &str = env!("CARGO_BIN_EXE_make-sheet");
const CHECK_RUN: &str = env!("CARGO_BIN_EXE_check-run");
const CASE_A: &[u8] = include_bytes!("data/case_a.script");
const CASE_A_LISTING: &[u8] = include_bytes!("data/case_a.listing");

fn output(program: &str, arguments: &[&str], input: &[u8]) -> Output {
    let mut child = Command::new(program)
        .args(arguments)
        .stdin(Stdio::piped())
        .stdout(Stdio::piped())
        .stderr(Stdio::piped())
        .spawn()
        .expect("the program starts");
    let mut stdin = child.stdin.take().expect("standard input is piped");
    stdin.write_all(input).expect("the program reads its input");
    drop(stdin);
    child.wait_with_output().expect("the program ends")
}

fn text(output: &Output) -> String {
    String::from_utf8(output.stdout.clone()).expect("text")
}

#[test]
fn cards_reference_prints_case_a() {
    let output = output(REFERENCE, &[], CASE_A);
    assert!(output.status.success());
    assert_eq!(output.stdout, CASE_A_LISTING);
}

#[test]
fn levels_reference_prints_levels() {
    let shipped = output(LEVELS, &[], SHIPPED);
    assert!(shipped.status.success());
    assert_eq!(text(&shipped), "1 6 6\n2 2 4\n3 3 4\n4 4 4\n5 1 6\n6 5 0\n");
    for bad in [&b""[..], b"task core deadline cards\n", &[b'\n'; MAX_BYTES + 1]] {
        let refused = output(LEVELS, &[], bad);
        assert!(refused.status.success());
        assert_eq!(text(&refused), "refused 13\n");
    }
}

#[test]
fn compare_finds_no_difference_in_the_reference() {
    let output = output(COMPARE, &["--seed", "7", "--count", "150", REFERENCE], b"");
    assert_eq!(output.status.code(), Some(0));
    let text = text(&output);
    assert!(text.starts_with("compared 150 scripts ("), "{text}");
    assert!(text.ends_with(" lines), no difference\n"), "{text}");
}

/// The reference with its listing edited, as a shell command.
fn compare_edited(edit: &str) -> String {
    let command = format!("\"$0\" | sed '{edit}'");
    let arguments = ["--quick", "--seed", "7", "--count", "600", "sh", "-c", &command, REFERENCE];
    let output = output(COMPARE, &arguments, b"");
    assert_eq!(output.status.code(), Some(1), "{edit}");
    text(&output)
}

#[test]
fn compare_shows_the_shortest_script_of_a_wrong_answer() {
    let text = compare_edited("s/ready -/ready 0/");
    let expected = [
        "listing of the reference:",
        "  line answer value\\n",
        "  2 ready -\\n",
        "listing of sh:",
        "  line answer value\\n",
        "  2 ready 0\\n",
    ];
    let lines: Vec<&str> = text.lines().collect();
    assert!(lines[0].contains(" differs, a script of "), "{text}");
    assert!(lines[1].starts_with("shortest script, "), "{text}");
    assert_eq!(lines[4], "fewest: every smaller choice was tried", "{text}");
    assert!(lines[5].starts_with("choices tried: "), "{text}");
    assert_eq!(lines[6..], expected, "{text}");
}

#[test]
fn compare_shrinks_a_wrong_wait_to_few_lines() {
    let text = compare_edited("s/waits .*/committed 0/");
    // Names, setup, two jobs, two begins, two touches of a card, one commit.
    assert_eq!(text.lines().filter(|line| line.starts_with("  ")).count(), 9 + 9 + 9, "{text}");
    assert!(text.contains("\nfewest: every smaller choice was tried\n"), "{text}");
}

/// A program that never waits, with no trials for the fewest lines.
fn compare_briefly() -> String {
    let command = "\"$0\" | sed 's/waits .*/committed 0/'";
    let arguments = ["--trials", "0", "--quick", "--count", "600", "sh", "-c", command, REFERENCE];
    let (status, text) = compare(&arguments);
    assert_eq!(status, Some(1));
    text
}

/// The first difference is in the script of the fewest lines that shows one.
#[test]
fn compare_takes_scripts_of_few_lines_first() {
    let text = compare_briefly();
    let waits = |script: &[u8]| String::from_utf8_lossy(&listing_of(script)).contains(" waits ");
    let scripts = (1..=600).map(|seed| (quick_script(seed), seed));
    let differ = scripts.filter(|(script, _)| waits(script));
    let first = differ.map(|(script, seed)| (count_lines(&script), seed)).min();
    let (lines, seed) = first.expect("some script waits");
    let expected = format!("seed {seed} differs, a script of {lines} lines\n");
    assert!(text.starts_with(&expected), "{expected}{text}");
}

/// Too few trials: what is left may not be the fewest lines, and that is said.
#[test]
fn compare_owns_up_to_a_search_that_ended_early() {
    let text = compare_briefly();
    assert!(text.contains(" lines; choices of 0 lines and more were not all tried\n"), "{text}");
}

#[test]
fn compare_shrinks_a_wrong_answer_to_empty_input() {
    let text = compare_edited("s/^1 refused 11/1 refused 12/");
    assert!(text.contains("shortest script, 0 bytes:\nfewest: every smaller choice"), "{text}");
}

#[test]
fn compare_tells_how_it_is_used() {
    assert_eq!(output(COMPARE, &[], b"").status.code(), Some(2));
    assert_eq!(output(COMPARE, &["--seed", "x", "y"], b"").status.code(), Some(2));
    let missing = output(COMPARE, &["--count", "1", "no-such-program"], b"");
    assert_eq!(missing.status.code(), Some(2));
}

fn compare(arguments: &[&str]) -> (Option<i32>, String) {
    let output = output(COMPARE, arguments, b"");
    (output.status.code(), text(&output))
}

#[test]
fn compare_ends_a_program_that_does_not() {
    let (status, text) = compare(&["--limit", "1", "--quick", "sleep", "1000"]);
    assert_eq!(status, Some(1));
    assert!(text.contains("shortest script, 0 bytes"), "{text}");
    assert!(text.ends_with("no listing of sleep: no end within 1 s\n"), "{text}");
}

#[test]
fn compare_wants_a_good_end() {
    let command = "\"$0\"; exit 3";
    let (status, text) = compare(&["--count", "2", "sh", "-c", command, REFERENCE]);
    assert_eq!(status, Some(1));
    assert!(text.ends_with("no listing of sh: ended with exit status: 3\n"), "{text}");
}

#[test]
fn compare_feeds_pieces() {
    let (status, text) = compare(&["--pieces", "--count", "3", REFERENCE]);
    assert_eq!((status, text.starts_with("compared 3 scripts (")), (Some(0), true), "{text}");
    let (status, text) = compare(&["--pieces", "--count", "3", "cat"]);
    assert_eq!(status, Some(1));
    assert!(text.contains(" differs in pieces of 1 bytes, a script of "), "{text}");
}

#[test]
fn compare_speaks_frames() {
    let (status, text) = compare(&["--frames", "--quick", REFERENCE, "frames"]);
    assert_eq!((status, text.starts_with("compared 1000 scripts (")), (Some(0), true), "{text}");
    // An echo: the frame comes back as it was, and is no listing.
    let (status, text) = compare(&["--frames", "--quick", "cat"]);
    assert_eq!(status, Some(1));
    assert!(text.contains("shortest script, 0 bytes"), "{text}");
    assert!(text.ends_with("listing of cat:\n"), "{text}");
    let (status, text) = compare(&["--frames", "sh", "-c", "echo broken >&2; exit 1"]);
    assert_eq!(status, Some(1));
    assert!(text.ends_with("ended with exit status: 1: broken\n"), "{text}");
    let (status, text) = compare(&["--frames", "--limit", "1", "sleep", "1000"]);
    assert_eq!(status, Some(1));
    assert!(text.ends_with("no end within 1 s\n"), "{text}");
    assert_eq!(compare(&["--frames", "--pieces", "cat"]).0, Some(2));
}

#[test]
fn compare_takes_sheets() {
    let (status, text) = compare(&["--sheets", "--count", "100", LEVELS]);
    assert_eq!((status, text.starts_with("compared 100 sheets (")), (Some(0), true), "{text}");
    let (status, text) = compare(&["--sheets", "--pieces", "--count", "2", LEVELS]);
    assert_eq!((status, text.starts_with("compared 2 sheets (")), (Some(0), true), "{text}");
    let (status, text) = compare(&["--sheets", "--frames", LEVELS, "frames"]);
    assert_eq!((status, text.starts_with("compared 1000 sheets (")), (Some(0), true), "{text}");
    assert_eq!(compare(&["--sheets", "--quick", "cat"]).0, Some(2));
}

#[test]
fn compare_shows_the_shortest_sheet() {
    let command = "\"$0\" | sed 's/^/0/'";
    let (status, text) = compare(&["--sheets", "--count", "50", "sh", "-c", command, LEVELS]);
    assert_eq!(status, Some(1));
    assert!(text.contains("\nshortest sheet, 0 bytes:\n"), "{text}");
    let end = "levels of the reference:\n  refused 13\\n\nlevels of sh:\n  0refused 13\\n\n";
    assert!(text.ends_with(end), "{text}");
}

#[test]
fn make_script_makes_so_many_lines() {
    let script = output(MAKE_SCRIPT, &["10", "4", "64", "500"], b"");
    assert!(script.status.success());
    assert!(script.stdout.starts_with(b"call core card value\nsetup 4 64 -\nrelease "));
    assert_eq!(text(&script).lines().count(), 500);
    let listing = text(&output(REFERENCE, &[], &script.stdout));
    assert!(listing.contains(" waits ") && listing.contains(" setback -\n"), "{listing}");
    assert_eq!(output(MAKE_SCRIPT, &["1", "17", "64", "500"], b"").status.code(), Some(2));
}

#[test]
fn make_sheet_makes_the_sheet_of_a_seed() {
    let made = output(MAKE_SHEET, &["7"], b"");
    assert!(made.status.success());
    assert_eq!(made.stdout, sheet(7));
    assert_eq!(output(MAKE_SHEET, &[], b"").status.code(), Some(2));
    assert_eq!(output(MAKE_SHEET, &["7", "8"], b"").status.code(), Some(2));
    assert_eq!(output(MAKE_SHEET, &["x"], b"").status.code(), Some(2));
}

fn check_listing(name: &str, listing: &str) -> Output {
    let path = std::path::Path::new(env!("CARGO_TARGET_TMPDIR")).join(name);
    std::fs::write(&path, listing).expect("the listing is written");
    output(CHECK_RUN, &[path.to_str().expect("a plain path")], CASE_A)
}

#[test]
fn check_run_judges_a_listing() {
    let right = String::from_utf8(CASE_A_LISTING.to_vec()).expect("text");
    let good = check_listing("good.listing", &right);
    assert_eq!(good.status.code(), Some(0), "{}", text(&good));
    assert!(text(&good).starts_with("checked 1 runs (12 calls), 0 claims broken\n"));

    let wrong = right.replace("13 value 30", "13 value 0");
    let bad = check_listing("bad.listing", &wrong);
    assert_eq!(bad.status.code(), Some(1));
    let shown = text(&bad);
    assert!(shown.contains("line 13: SerialReads broken for transaction 1\n"), "{shown}");
    assert!(shown.contains("line 13: not the rule's answer\n"), "{shown}");

    let named = check_listing("named.listing", &right.replace("10 waits 0", "10 waits 1"));
    assert_eq!(named.status.code(), Some(1));
    let shown = text(&named);
    assert!(shown.contains("line 10: NamedFirst broken for transaction 1\n"), "{shown}");
    assert!(shown.contains("line 10: not the rule's answer\n"), "{shown}");

    let short = check_listing("short.listing", "line answer value\n2 ready -\n");
    assert_eq!(short.status.code(), Some(1));
    assert_eq!(text(&short), "line 3 is not listed\n");
}

#[test]
fn check_run_judges_runs_by_seed() {
    let output = output(CHECK_RUN, &["--seed", "1", "--count", "20"], b"");
    assert_eq!(output.status.code(), Some(0));
    assert!(text(&output).starts_with("checked 20 runs (40000 calls), 0 claims broken\n"));
}
