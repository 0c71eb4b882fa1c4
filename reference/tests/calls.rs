//! What the calls do beyond the examples: one test for each sentence.

mod common;

use cards_reference::answer::Answer;
use cards_reference::machine::{dispatch, Machine};
use common::{answers, call, machine, CROWD};

fn say(machine: &mut Machine, line: &str) -> Answer {
    machine.call(call(line))
}

const READY: [&str; 7] = [
    "setup 3 2 -",
    "release 0 1 1",
    "release 1 2 1",
    "release 2 3 1",
    "begin 0 - -",
    "begin 1 - -",
    "begin 2 - -",
];

#[test]
fn setup_zeroes_everything() {
    let mut machine = machine(&[&READY[..], &["write 0 0 9", "commit 0 - -"]].concat());
    assert_eq!(say(&mut machine, "setup 3 2 -"), Answer::Ready);
    assert_eq!(machine.record, common::machine(&["setup 3 2 -"]).record);
    assert_eq!(machine.committed(), [0, 0]);
}

#[test]
fn read_gives_own_write_and_committed_version() {
    let mut machine = machine(&READY);
    let value = |value, version| Answer::Value { value, version };
    assert_eq!(say(&mut machine, "write 1 1 8"), Answer::Written);
    assert_eq!(say(&mut machine, "read 1 1 -"), value(8, 0));
    assert_eq!(say(&mut machine, "read 2 1 -"), value(0, 0));
    assert_eq!(say(&mut machine, "commit 1 - -"), Answer::Committed(0));
    assert_eq!(say(&mut machine, "read 2 1 -"), Answer::SetBack);
    assert_eq!(say(&mut machine, "read 2 1 -"), value(8, 1));
}

#[test]
fn a_new_attempt_does_not_see_the_old_pending_word() {
    let mut machine = machine(&READY);
    say(&mut machine, "write 1 0 5");
    say(&mut machine, "write 0 0 6");
    assert_eq!(say(&mut machine, "commit 0 - -"), Answer::Committed(0));
    assert_eq!(say(&mut machine, "write 1 0 7"), Answer::SetBack);
    let value = Answer::Value { value: 6, version: 1 };
    assert_eq!(say(&mut machine, "read 1 0 -"), value);
}

#[test]
fn version_rises_also_when_the_value_is_equal() {
    let mut machine = machine(&READY);
    say(&mut machine, "write 0 0 0");
    say(&mut machine, "write 0 0 0");
    say(&mut machine, "commit 0 - -");
    assert_eq!(machine.record.versions[..2], [1, 0]);
}

#[test]
fn waits_changes_nothing() {
    let mut machine = machine(&READY);
    say(&mut machine, "read 1 0 -");
    say(&mut machine, "write 2 0 4");
    let before = machine.record;
    assert_eq!(say(&mut machine, "commit 2 - -"), Answer::Waits { core: 1 });
    assert_eq!(machine.record, before);
    assert_eq!(machine.committed(), [0, 0]);
    say(&mut machine, "giveup 1 - -");
    assert_eq!(say(&mut machine, "commit 2 - -"), Answer::Committed(0));
}

#[test]
fn waits_names_the_core_with_the_smallest_conflicting_ticket() {
    let mut machine = machine(&CROWD);
    let before = machine.record;
    for (core, first) in [(4, 2), (1, 2), (5, 2)] {
        let answer = say(&mut machine, &format!("commit {core} - -"));
        assert_eq!(answer, Answer::Waits { core: first }, "core {core}");
    }
    assert_eq!(machine.record, before);
    // Core 0 reads what core 2 reads, and these two do not conflict.
    say(&mut machine, "giveup 3 - -");
    say(&mut machine, "write 0 1 7");
    assert_eq!(say(&mut machine, "commit 0 - -"), Answer::Waits { core: 5 });
}

#[test]
fn whom_waits_names_is_the_next_when_the_first_has_ended() {
    let mut machine = machine(&CROWD);
    for first in [2, 5, 0] {
        assert_eq!(say(&mut machine, "commit 4 - -"), Answer::Waits { core: first });
        say(&mut machine, &format!("giveup {first} - -"));
    }
    assert_eq!(say(&mut machine, "commit 4 - -"), Answer::Committed(0));
}

#[test]
fn a_zombie_is_not_named() {
    let mut machine = machine(&CROWD);
    say(&mut machine, "read 2 1 -");
    assert_eq!(say(&mut machine, "commit 3 - -"), Answer::Committed(0));
    assert!(machine.record.core[2].zombie);
    assert_eq!(say(&mut machine, "commit 4 - -"), Answer::Waits { core: 5 });
    say(&mut machine, "commit 2 - -");
    say(&mut machine, "write 2 0 8");
    assert_eq!(say(&mut machine, "commit 4 - -"), Answer::Waits { core: 2 });
}

#[test]
fn waits_goes_by_tickets_and_not_by_the_time_of_the_touch() {
    let mut machine = machine(&READY);
    for line in ["write 2 0 4", "write 1 0 4", "write 0 0 4"] {
        say(&mut machine, line);
    }
    assert_eq!(say(&mut machine, "commit 2 - -"), Answer::Waits { core: 0 });
}

#[test]
fn the_listing_prints_the_core_in_the_value_column() {
    let waits = |lines: &[&str]| answers(lines).pop();
    assert_eq!(waits(&[&CROWD[..], &["commit 4 - -"]].concat()).as_deref(), Some("waits 2"));
    let two_digits = [
        "setup 16 1 -",
        "release 15 1 1",
        "release 3 1 1",
        "begin 15 - -",
        "begin 3 - -",
        "read 15 0 -",
        "write 3 0 1",
        "commit 3 - -",
    ];
    assert_eq!(waits(&two_digits).as_deref(), Some("waits 15"));
}

#[test]
fn a_struck_one_keeps_its_ticket_and_counts_each_strike() {
    let mut machine = machine(&READY);
    for (striker, value) in [(0, 5), (1, 6)] {
        assert_eq!(
            say(&mut machine, "read 2 0 -"),
            Answer::Value { value: if striker == 0 { 0 } else { 5 }, version: striker }
        );
        say(&mut machine, &format!("write {striker} 0 {value}"));
        say(&mut machine, &format!("commit {striker} - -"));
        assert_eq!(machine.record.core[2].ticket, 2);
        assert_eq!(say(&mut machine, "commit 2 - -"), Answer::SetBack);
    }
    assert_eq!(say(&mut machine, "commit 2 - -"), Answer::Committed(2));
}

#[test]
fn a_zombie_is_in_nobodys_way() {
    let mut machine = machine(&READY);
    say(&mut machine, "write 1 1 5");
    say(&mut machine, "read 1 0 -");
    say(&mut machine, "write 0 0 6");
    say(&mut machine, "commit 0 - -");
    say(&mut machine, "write 2 1 7");
    assert_eq!(say(&mut machine, "commit 2 - -"), Answer::Committed(0));
    assert_eq!(machine.record.core[1].aborts, 1);
    assert_eq!(machine.committed(), [6, 7]);
}

#[test]
fn give_up_ends_a_zombie_without_effect() {
    let mut machine = machine(&READY);
    say(&mut machine, "write 1 0 5");
    say(&mut machine, "write 0 0 6");
    say(&mut machine, "commit 0 - -");
    assert_eq!(say(&mut machine, "giveup 1 - -"), Answer::Ended);
    assert_eq!(machine.record.give_ups, 1);
    assert_eq!(machine.committed(), [6, 0]);
    assert_eq!(say(&mut machine, "begin 1 - -"), Answer::Begun(3));
}

#[test]
fn finish_keeps_the_order_of_the_others() {
    let lines = [
        "setup 1 1 -",
        "release 0 1 30",
        "release 0 2 20",
        "release 0 3 20",
        "release 0 4 10",
        "finish 0 - -",
        "finish 0 - -",
        "release 0 5 20",
        "finish 0 - -",
        "finish 0 - -",
        "finish 0 - -",
    ];
    let expected = [
        "running -",
        "running -",
        "queued -",
        "running -",
        "finished 4",
        "finished 2",
        "queued -",
        "finished 3",
        "finished 5",
        "finished 1",
    ];
    assert_eq!(answers(&lines)[1..], expected);
}

#[test]
fn reads_and_writes_join_their_sets() {
    let mut machine = machine(&READY);
    for (line, read_set, write_set) in [
        ("write 1 1 8", 0b00, 0b10),
        ("read 1 1 -", 0b10, 0b10),
        ("read 1 0 -", 0b11, 0b10),
        ("write 1 0 3", 0b11, 0b11),
    ] {
        say(&mut machine, line);
        let core = machine.record.core[1];
        assert_eq!((core.read_set, core.write_set), (read_set, write_set), "{line}");
    }
}

#[test]
fn a_strike_changes_sets_aborts_and_mark_and_nothing_else() {
    let lines = ["read 1 0 -", "write 1 1 4", "read 2 1 -", "write 0 0 6"];
    let mut machine = machine(&[&READY[..], &lines].concat());
    let mut expected = machine.record;
    say(&mut machine, "commit 0 - -");
    let struck = &mut expected.core[1];
    (struck.read_set, struck.write_set) = (0, 0);
    (struck.aborts, struck.zombie) = (1, true);
    expected.core[0] = expected.core[0].without_transaction();
    expected.commits = 1;
    expected.versions[0] = 1;
    assert_eq!(machine.record, expected);
    say(&mut machine, "write 1 1 9");
    expected.core[1].zombie = false;
    assert_eq!(machine.record, expected);
}

#[test]
fn only_write_changes_a_pending_word_and_only_commit_a_committed_one() {
    let record = machine(&[&READY[..], &["write 1 1 8"]].concat()).record;
    for line in ["read 1 1 -", "read 1 0 -", "write 1 0 7", "commit 1 - -"] {
        let (mut committed, mut pending) = ([10, 11], [20, 21, 22, 23, 24, 25]);
        dispatch(record, call(line), &mut committed, &mut pending);
        let written = line.starts_with("write");
        let moved = line.starts_with("commit");
        assert_eq!(committed, [10, if moved { 23 } else { 11 }], "{line}");
        assert_eq!(pending, [20, 21, if written { 7 } else { 22 }, 23, 24, 25], "{line}");
    }
}
