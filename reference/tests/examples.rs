//! Examples A to L of document 01, A with the line 10 of document 02, paper 1.

mod common;

use cards_reference::answer::Answer;
use cards_reference::script::listing_of;
use common::{answers, call, last_answer, machine};

const CASE_A: &[u8] = include_bytes!("data/case_a.script");
const CASE_A_LISTING: &[u8] = include_bytes!("data/case_a.listing");

#[test]
fn a_listing_byte_for_byte() {
    assert_eq!(listing_of(CASE_A), CASE_A_LISTING);
}

#[test]
fn a_line_10_names_core_0() {
    let listing = String::from_utf8(listing_of(CASE_A)).expect("text");
    assert_eq!(listing.lines().nth(9), Some("10 waits 0"));
}

#[test]
fn a_object_1_stays_0() {
    let text = std::str::from_utf8(CASE_A).expect("text");
    let lines: Vec<&str> = text.lines().skip(1).collect();
    let machine = machine(&lines);
    assert_eq!(machine.committed(), [30, 0]);
    assert_eq!(machine.record.versions[..2], [1, 0]);
}

#[test]
fn b_cores_1_to_16() {
    assert_eq!(last_answer(&["setup 0 1 -"]), "refused 1");
    assert_eq!(last_answer(&["setup 17 1 -"]), "refused 1");
    assert_eq!(last_answer(&["setup 1 1 -"]), "ready -");
    assert_eq!(last_answer(&["setup 16 1 -"]), "ready -");
}

#[test]
fn c_objects_1_to_64() {
    assert_eq!(last_answer(&["setup 1 64 -"]), "ready -");
    assert_eq!(last_answer(&["setup 1 65 -"]), "refused 1");
    assert_eq!(last_answer(&["setup 1 0 -"]), "refused 1");
}

#[test]
fn d_core_16_of_16() {
    assert_eq!(last_answer(&["setup 16 1 -", "release 16 1 1"]), "refused 4");
    assert_eq!(last_answer(&["setup 16 1 -", "release 15 1 1"]), "running -");
}

#[test]
fn e_eighth_job_joins_ninth_does_not() {
    let mut lines = vec!["setup 1 1 -"];
    lines.extend(["release 0 1 1"; 9]);
    let answers = answers(&lines);
    assert_eq!(answers[1], "running -");
    assert_eq!(answers[2..9], ["queued -"; 7]);
    assert_eq!(answers[9], "refused 6");
}

#[test]
fn f_begin_twice() {
    let lines = ["setup 1 1 -", "release 0 1 1", "begin 0 - -", "begin 0 - -"];
    assert_eq!(answers(&lines)[2..], ["begun 0", "refused 8"]);
}

const TWO_BEGUN: [&str; 5] =
    ["setup 2 3 -", "release 0 1 1", "release 1 2 2", "begin 0 - -", "begin 1 - -"];

fn after_two_begun(lines: &[&str]) -> Vec<String> {
    answers(&[&TWO_BEGUN, lines].concat()).split_off(TWO_BEGUN.len())
}

#[test]
fn g_later_writer_of_untouched_object_commits_first() {
    let lines = ["write 0 0 5", "write 1 1 6", "commit 1 - -", "commit 0 - -"];
    let expected = ["written -", "written -", "committed 0", "committed 0"];
    assert_eq!(after_two_begun(&lines), expected);
}

#[test]
fn h_two_readers_do_not_wait() {
    let lines = ["read 0 0 -", "read 1 0 -", "commit 1 - -", "commit 0 - -"];
    let expected = ["value 0", "value 0", "committed 0", "committed 0"];
    assert_eq!(after_two_begun(&lines), expected);
}

/// Since paper 4 of document 02 the two of H commit at once, being read-only,
/// even where readers conflict. These two have written.
#[test]
fn h_two_readers_that_write_others_neither_wait_nor_strike() {
    let access = ["read 0 0 -", "read 1 0 -", "write 0 1 5", "write 1 2 6"];
    for commits in [["commit 1 - -", "commit 0 - -"], ["commit 0 - -", "commit 1 - -"]] {
        let lines = [&access[..], &commits].concat();
        let expected =
            ["value 0", "value 0", "written -", "written -", "committed 0", "committed 0"];
        assert_eq!(after_two_begun(&lines), expected);
    }
}

#[test]
fn i_zombie_reads_object_64_of_64() {
    let mut machine = machine(&[
        "setup 2 64 -",
        "release 0 1 1",
        "release 1 2 2",
        "begin 0 - -",
        "begin 1 - -",
        "read 1 63 -",
        "write 0 63 9",
        "commit 0 - -",
    ]);
    assert!(machine.record.core[1].zombie);
    let before = machine.record;
    assert_eq!(machine.call(call("read 1 64 -")), Answer::Refused(5));
    assert_eq!(machine.record, before);
    assert_eq!(machine.call(call("read 1 63 -")), Answer::SetBack);
    let value = Answer::Value { value: 9, version: 1 };
    assert_eq!(machine.call(call("read 1 63 -")), value);
}

#[test]
fn j_equal_deadlines_first_released_runs() {
    let lines = ["setup 1 1 -", "release 0 7 90", "release 0 8 90", "finish 0 - -"];
    assert_eq!(answers(&lines)[1..], ["running -", "queued -", "finished 7"]);
}

#[test]
fn k_urgent_job_waits_for_the_transaction() {
    let lines = [
        "setup 1 1 -",
        "release 0 7 90",
        "begin 0 - -",
        "release 0 8 10",
        "finish 0 - -",
        "commit 0 - -",
        "finish 0 - -",
        "finish 0 - -",
        "finish 0 - -",
    ];
    let expected =
        ["queued -", "refused 8", "committed 0", "finished 8", "finished 7", "refused 7"];
    assert_eq!(answers(&lines)[3..], expected);
}

#[test]
fn l_largest_value_and_one_more() {
    let lines = ["setup 1 1 -", "write 0 0 4294967295", "write 0 0 4294967296"];
    assert_eq!(answers(&lines)[1..], ["refused 9", "refused 11"]);
}
