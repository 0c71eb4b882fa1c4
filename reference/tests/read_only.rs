//! Paper 4 of document 02 by hand: a transaction that has written nothing commits
//! when requested, and for everybody else nothing changes.

mod common;

use cards_reference::answer::Answer;
use cards_reference::machine::Machine;
use common::{answers, call, machine};

fn say(machine: &mut Machine, line: &str) -> Answer {
    machine.call(call(line))
}

/// The answers to these lines, one after another.
fn say_all(machine: &mut Machine, lines: &[&str]) -> Vec<Answer> {
    lines.iter().map(|line| say(machine, line)).collect()
}

fn value(value: u32, version: u32) -> Answer {
    Answer::Value { value, version }
}

/// Three cores, begun in the order 0, 1, 2.
const BEGUN: [&str; 7] = [
    "setup 3 12 -",
    "release 0 1 1",
    "release 1 2 1",
    "release 2 3 1",
    "begin 0 - -",
    "begin 1 - -",
    "begin 2 - -",
];

#[test]
fn a_display_reads_ten_written_cards_and_commits_at_once() {
    let mut machine = machine(&BEGUN);
    for card in 0..10 {
        assert_eq!(say(&mut machine, &format!("write 0 {card} {}", card + 20)), Answer::Written);
    }
    for card in 0..10 {
        assert_eq!(say(&mut machine, &format!("read 2 {card} -")), value(0, 0));
    }
    let mut expected = machine.record;
    assert_eq!(say(&mut machine, "commit 2 - -"), Answer::Committed(0));
    expected.core[2] = expected.core[2].without_transaction();
    expected.commits = 1;
    assert_eq!(machine.record, expected, "no version rises and nobody is struck");
    assert_eq!(machine.committed(), [0; 12]);

    // It is gone: the writer's commit strikes nobody, and the next frame is new.
    assert_eq!(say(&mut machine, "commit 0 - -"), Answer::Committed(0));
    assert!(machine.record.core.iter().all(|core| core.aborts == 0 && !core.zombie));
    say(&mut machine, "begin 2 - -");
    assert_eq!(say(&mut machine, "read 2 9 -"), value(29, 1));
    assert_eq!(say(&mut machine, "commit 2 - -"), Answer::Committed(0));
}

#[test]
fn the_listing_of_a_display() {
    let lines = ["write 0 3 7", "read 1 3 -", "commit 1 - -", "commit 0 - -"];
    let expected = ["written -", "value 0", "committed 0", "committed 0"];
    assert_eq!(answers(&[&BEGUN[..], &lines].concat())[BEGUN.len()..], expected);
}

#[test]
fn it_passes_several_earlier_ones_and_readers_of_its_cards_stay() {
    let mut machine = machine(&BEGUN);
    let lines = ["write 0 0 5", "write 1 1 6", "read 1 2 -", "read 2 0 -", "read 2 1 -"];
    say_all(&mut machine, &[&lines[..], &["read 2 2 -"]].concat());
    let others = machine.record.core[..2].to_vec();
    assert_eq!(say(&mut machine, "commit 2 - -"), Answer::Committed(0));
    assert_eq!(machine.record.core[..2], others);
    assert_eq!(machine.record.versions, [0; 64]);
}

#[test]
fn a_later_writer_waits_for_an_earlier_read_only_one() {
    let mut machine = machine(&BEGUN);
    say_all(&mut machine, &["read 1 4 -", "write 2 4 8"]);
    let before = machine.record;
    assert_eq!(say(&mut machine, "commit 2 - -"), Answer::Waits { core: 1 });
    assert_eq!(machine.record, before);
    // Of two read-only ones the one begun first is named.
    say(&mut machine, "read 0 4 -");
    assert_eq!(say(&mut machine, "commit 2 - -"), Answer::Waits { core: 0 });
    assert_eq!(say(&mut machine, "commit 0 - -"), Answer::Committed(0));
    assert_eq!(say(&mut machine, "commit 2 - -"), Answer::Waits { core: 1 });
    assert_eq!(say(&mut machine, "commit 1 - -"), Answer::Committed(0));
    assert_eq!(say(&mut machine, "commit 2 - -"), Answer::Committed(0));
    assert_eq!(machine.committed()[4], 8);
}

#[test]
fn an_earlier_writer_strikes_a_later_read_only_one() {
    let mut machine = machine(&BEGUN);
    say_all(&mut machine, &["read 2 4 -", "write 0 4 8"]);
    assert_eq!(say(&mut machine, "commit 0 - -"), Answer::Committed(0));
    assert!(machine.record.core[2].zombie);
}

#[test]
fn a_marked_read_only_one_is_told_by_its_commit_and_the_next_commits() {
    let mut machine = machine(&BEGUN);
    say_all(&mut machine, &["read 2 4 -", "write 0 4 8", "write 1 5 9", "commit 0 - -"]);
    let mut expected = machine.record;
    assert_eq!(say(&mut machine, "commit 2 - -"), Answer::SetBack);
    expected.core[2].zombie = false;
    assert_eq!(machine.record, expected);
    assert_eq!(say(&mut machine, "commit 2 - -"), Answer::Committed(1));
}

#[test]
fn a_marked_read_only_one_reads_again_and_commits() {
    let mut machine = machine(&BEGUN);
    say_all(&mut machine, &["read 2 4 -", "write 0 4 8", "write 1 4 9", "commit 0 - -"]);
    assert!(machine.record.core[1].zombie && machine.record.core[2].zombie);
    // Core 1, begun earlier, writes the card again and has not committed.
    assert_eq!(
        say_all(&mut machine, &["write 1 4 9", "write 1 4 9", "read 2 4 -", "read 2 4 -"]),
        [Answer::SetBack, Answer::Written, Answer::SetBack, value(8, 1)]
    );
    assert_eq!(say(&mut machine, "commit 2 - -"), Answer::Committed(1));
    assert_eq!(say(&mut machine, "commit 1 - -"), Answer::Committed(1));
    assert_eq!(machine.record.versions[4], 2);
}

#[test]
fn one_that_wrote_and_was_set_back_comes_back_as_a_read_only_one() {
    let mut machine = machine(&BEGUN);
    say_all(&mut machine, &["write 2 4 7", "write 0 4 8"]);
    assert_eq!(say(&mut machine, "commit 2 - -"), Answer::Waits { core: 0 });
    say(&mut machine, "commit 0 - -");
    assert_eq!(say(&mut machine, "read 2 4 -"), Answer::SetBack);
    say(&mut machine, "write 1 4 9");
    assert_eq!(say(&mut machine, "read 2 4 -"), value(8, 1));
    assert_eq!(say(&mut machine, "commit 2 - -"), Answer::Committed(1));
    assert_eq!(machine.committed()[4], 8, "what the dead attempt wrote has no effect");
    assert_eq!(machine.record.versions[4], 1);
}

#[test]
fn one_that_only_read_and_was_set_back_may_come_back_as_a_writer() {
    let mut machine = machine(&BEGUN);
    say_all(&mut machine, &["read 2 4 -", "write 0 4 8", "commit 0 - -", "read 2 4 -"]);
    say_all(&mut machine, &["read 1 4 -", "write 2 4 7"]);
    assert_eq!(say(&mut machine, "commit 2 - -"), Answer::Waits { core: 1 });
}

#[test]
fn one_that_did_nothing_commits() {
    let mut machine = machine(&BEGUN);
    say_all(&mut machine, &["write 0 0 5", "write 1 1 6"]);
    assert_eq!(say(&mut machine, "commit 2 - -"), Answer::Committed(0));
    assert_eq!(machine.record.commits, 1);
}

#[test]
fn one_that_wrote_the_value_that_a_card_had_is_not_read_only() {
    let mut machine = machine(&BEGUN);
    say_all(&mut machine, &["write 0 4 8", "write 2 4 0"]);
    assert_eq!(say(&mut machine, "commit 2 - -"), Answer::Waits { core: 0 });
    // The same for a card that it had read before, and where the other is read-only.
    say_all(&mut machine, &["giveup 0 - -", "read 1 4 -", "read 2 4 -"]);
    assert_eq!(say(&mut machine, "commit 2 - -"), Answer::Waits { core: 1 });
}

#[test]
fn one_that_wrote_another_card_waits_for_what_it_reads() {
    let mut machine = machine(&BEGUN);
    say_all(&mut machine, &["write 0 4 8", "read 2 4 -", "write 2 5 1"]);
    assert_eq!(say(&mut machine, "commit 2 - -"), Answer::Waits { core: 0 });
}
