//! Each claim of the checker, on runs made by hand: one that breaks it, and a
//! twin that does not.

mod common;

use cards_reference::answer::Answer;
use cards_reference::checker::{check, Claim, Detail, Nearest, Report, Run};
use cards_reference::listed_runs::listed_runs;
use common::{call, NAMES};

/// The run that these script lines and their listed answers show, after a
/// setup of 3 cores and 3 objects. Jobs are left out; no claim speaks of them.
fn listed(steps: &[(&str, &str)]) -> Run {
    listed_on(3, steps)
}

/// The same on a machine of so many cores.
fn listed_on(cores: u32, steps: &[(&str, &str)]) -> Run {
    let mut script = format!("{NAMES}\nsetup {cores} 3 -\n");
    let mut listing = "line answer value\n2 ready -\n".to_string();
    for (place, (line, answer)) in steps.iter().enumerate() {
        script += &format!("{line}\n");
        listing += &format!("{} {answer}\n", place + 3);
    }
    let runs = listed_runs(script.as_bytes(), listing.as_bytes());
    runs.expect("a listing that fits").remove(0).run
}

fn report(steps: &[(&str, &str)]) -> Report {
    check(&listed(steps))
}

/// The broken claims as call, claim and transaction.
fn broken(report: &Report) -> Vec<(usize, Claim, Option<usize>)> {
    let parts = |b: &cards_reference::checker::Broken| (b.call, b.claim, b.transaction);
    report.broken.iter().map(parts).collect()
}

/// The steps with one answer changed.
fn with<'a>(
    steps: &[(&'a str, &'a str)],
    place: usize,
    answer: &'a str,
) -> Vec<(&'a str, &'a str)> {
    let mut steps = steps.to_vec();
    steps[place].1 = answer;
    steps
}

#[test]
fn answer_fits() {
    for steps in [
        [("begin 0 - -", "begun 0"), ("read 0 0 -", "written -")],
        [("begin 0 - -", "begun 0"), ("begin 0 - -", "begun 1")],
        [("begin 0 - -", "begun 0"), ("read 1 0 -", "value 0")],
        [("begin 0 - -", "begun 0"), ("read 0 3 -", "value 0")],
        [("begin 0 - -", "begun 0"), ("write 3 0 1", "written -")],
        [("begin 0 - -", "begun 0"), ("giveup 0 - -", "committed 0")],
        [("begin 0 - -", "begun 0"), ("giveup 0 - -", "setback -")],
        [("begin 0 - -", "begun 0"), ("finish 1 - -", "running -")],
    ] {
        assert_eq!(broken(&report(&steps)), [(1, Claim::AnswerFits, None)], "{steps:?}");
    }
}

const SERIAL: [(&str, &str); 6] = [
    ("begin 0 - -", "begun 0"),
    ("write 0 0 5", "written -"),
    ("commit 0 - -", "committed 0"),
    ("begin 1 - -", "begun 1"),
    ("read 1 0 -", "value 5"),
    ("commit 1 - -", "committed 0"),
];

#[test]
fn serial_reads() {
    assert_eq!(broken(&report(&SERIAL)), []);
    let old = report(&with(&SERIAL, 4, "value 0"));
    assert_eq!(broken(&old), [(4, Claim::SerialReads, Some(1))]);
}

#[test]
fn serial_reads_of_own_writes() {
    let steps = [
        ("begin 0 - -", "begun 0"),
        ("write 0 0 5", "written -"),
        ("read 0 0 -", "value 5"),
        ("commit 0 - -", "committed 0"),
    ];
    assert_eq!(broken(&report(&steps)), []);
    let lost = report(&with(&steps, 2, "value 0"));
    assert_eq!(broken(&lost), [(2, Claim::SerialReads, Some(0))]);
}

#[test]
fn serial_table() {
    let mut run = listed(&SERIAL);
    run.tables = Some(vec![vec![5, 0, 0], vec![5, 0, 0]]);
    run.last_table = Some(vec![5, 0, 0]);
    assert_eq!(broken(&check(&run)), []);
    run.last_table = Some(vec![5, 0, 1]);
    assert_eq!(broken(&check(&run)), [(5, Claim::SerialTable, None)]);
    run.last_table = None;
    run.tables = Some(vec![vec![0, 0, 0], vec![5, 0, 0]]);
    assert_eq!(broken(&check(&run)), [(2, Claim::SerialTable, Some(0))]);
}

const TOGETHER: [(&str, &str); 10] = [
    ("begin 0 - -", "begun 0"),
    ("begin 1 - -", "begun 1"),
    ("read 1 0 -", "value 0"),
    ("write 0 0 5", "written -"),
    ("write 0 1 5", "written -"),
    ("commit 0 - -", "committed 0"),
    ("commit 1 - -", "setback -"),
    ("read 1 0 -", "value 5"),
    ("read 1 1 -", "value 5"),
    ("giveup 1 - -", "ended -"),
];

#[test]
fn stood_together() {
    assert_eq!(broken(&report(&TOGETHER)), []);
    let mixed = with(&TOGETHER, 7, "value 0");
    let expected = [(8, Claim::StoodTogether, Some(1))];
    assert_eq!(broken(&report(&mixed)), expected);
    assert_eq!(broken(&report(&mixed[..9])), expected, "also while it is open");
}

#[test]
fn values_of_a_later_commit_did_not_stand_yet() {
    let steps = [
        ("begin 0 - -", "begun 0"),
        ("begin 1 - -", "begun 1"),
        ("read 1 0 -", "value 5"),
        ("giveup 1 - -", "ended -"),
        ("write 0 0 5", "written -"),
        ("commit 0 - -", "committed 0"),
    ];
    let expected = [(2, Claim::StoodTogether, Some(1))];
    assert_eq!(broken(&report(&steps)), expected);
}

/// A run whose answers show everything.
fn whole(steps: &[(&str, Answer)]) -> Run {
    Run {
        cores: 3,
        objects: 3,
        steps: steps.iter().map(|&(line, answer)| (call(line), answer)).collect(),
        detail: Detail::Whole,
        tables: None,
        last_table: None,
    }
}

#[test]
fn versions() {
    let run = |version| {
        whole(&[
            ("begin 0 - -", Answer::Begun(0)),
            ("write 0 0 5", Answer::Written),
            ("write 0 0 6", Answer::Written),
            ("commit 0 - -", Answer::Committed(0)),
            ("begin 0 - -", Answer::Begun(1)),
            ("write 0 0 7", Answer::Written),
            ("read 0 0 -", Answer::Value { value: 7, version }),
        ])
    };
    assert_eq!(broken(&check(&run(1))), []);
    for wrong in [0, 2] {
        let expected = [(6, Claim::Versions, Some(1))];
        assert_eq!(broken(&check(&run(wrong))), expected);
    }
}

#[test]
fn a_struck_first_shows_in_three_claims() {
    let steps = [
        ("begin 0 - -", "begun 0"),
        ("begin 1 - -", "begun 1"),
        ("read 0 0 -", "value 0"),
        ("write 1 0 5", "written -"),
        ("commit 1 - -", "waits 0"),
    ];
    assert_eq!(broken(&report(&steps)), []);
    let expected = [
        (4, Claim::StrikesAtMostK, Some(0)),
        (4, Claim::StruckByEarlier, Some(0)),
        (4, Claim::CommitsInTurn, Some(1)),
    ];
    assert_eq!(broken(&report(&with(&steps, 4, "committed 0"))), expected);
}

#[test]
fn waits_for_earlier() {
    let readers = [
        ("begin 0 - -", "begun 0"),
        ("begin 1 - -", "begun 1"),
        ("read 0 0 -", "value 0"),
        ("read 1 0 -", "value 0"),
        ("commit 1 - -", "waits 0"),
    ];
    let expected = [
        (4, Claim::WaitsForEarlier, Some(1)),
        (4, Claim::ReadOnlyNeverWaits, Some(1)),
        (4, Claim::NamedInConflict, Some(1)),
    ];
    assert_eq!(broken(&report(&readers)), expected);
    assert_eq!(broken(&report(&with(&readers, 4, "committed 0"))), []);

    let for_later = [
        ("begin 0 - -", "begun 0"),
        ("begin 1 - -", "begun 1"),
        ("begin 2 - -", "begun 2"),
        ("write 0 0 1", "written -"),
        ("read 1 0 -", "value 0"),
        ("read 2 0 -", "value 0"),
        ("commit 0 - -", "waits 2"),
    ];
    let expected = [(6, Claim::WaitsForEarlier, Some(0)), (6, Claim::NamedEarlier, Some(0))];
    assert_eq!(broken(&report(&for_later)), expected);
}

/// Cores 0 and 1 have read one object and written two others.
const SHARED: [(&str, &str); 8] = [
    ("begin 0 - -", "begun 0"),
    ("begin 1 - -", "begun 1"),
    ("read 0 0 -", "value 0"),
    ("read 1 0 -", "value 0"),
    ("write 0 1 5", "written -"),
    ("write 1 2 6", "written -"),
    ("commit 1 - -", "committed 0"),
    ("commit 0 - -", "committed 0"),
];

#[test]
fn two_that_have_read_one_object_neither_wait_nor_are_struck() {
    assert_eq!(broken(&report(&SHARED)), []);
    let waits = report(&with(&SHARED[..7], 6, "waits 0"));
    let expected = [(6, Claim::WaitsForEarlier, Some(1)), (6, Claim::NamedInConflict, Some(1))];
    assert_eq!(broken(&waits), expected);
    let told = report(&with(&SHARED, 7, "setback -"));
    assert_eq!(broken(&told), [(7, Claim::ToldOnce, Some(0))]);
    let counted = report(&with(&SHARED, 7, "committed 1"));
    assert_eq!(broken(&counted), [(7, Claim::AbortsReported, Some(0))]);
}

/// Core 1 reads what core 0 has written, and asks to commit.
const READ_ONLY: [(&str, &str); 6] = [
    ("begin 0 - -", "begun 0"),
    ("begin 1 - -", "begun 1"),
    ("write 0 0 5", "written -"),
    ("read 1 0 -", "value 0"),
    ("commit 1 - -", "committed 0"),
    ("commit 0 - -", "committed 0"),
];

#[test]
fn one_that_has_written_nothing_never_waits() {
    assert_eq!(broken(&report(&READ_ONLY)), []);
    let waits = report(&with(&READ_ONLY[..5], 4, "waits 0"));
    assert_eq!(broken(&waits), [(4, Claim::ReadOnlyNeverWaits, Some(1))]);
    // With nothing touched there is nobody in the way either.
    let idle = [READ_ONLY[0], READ_ONLY[1], READ_ONLY[2], ("commit 1 - -", "waits 0")];
    let expected = [
        (3, Claim::WaitsForEarlier, Some(1)),
        (3, Claim::ReadOnlyNeverWaits, Some(1)),
        (3, Claim::NamedInConflict, Some(1)),
    ];
    assert_eq!(broken(&report(&idle)), expected);
}

#[test]
fn one_that_has_written_nothing_is_never_refused() {
    let refused = report(&with(&READ_ONLY, 4, "refused 9"));
    let expected = [(4, Claim::ReadOnlyNeverRefused, Some(1))];
    assert_eq!(broken(&refused), expected);
    // Nor while it is marked and not told; a core with no transaction may be.
    let marked = [&TOGETHER[..6], &[("commit 1 - -", "refused 2")]].concat();
    assert_eq!(broken(&report(&marked)), [(6, Claim::ReadOnlyNeverRefused, Some(1))]);
    let nobody = [&READ_ONLY[..5], &[("commit 1 - -", "refused 9"), ("commit 3 - -", "refused 4")]];
    assert_eq!(broken(&report(&nobody.concat())), []);
    // Of one that has written this claim says nothing.
    let wrote = [READ_ONLY[0], READ_ONLY[2], ("commit 0 - -", "refused 3")];
    assert_eq!(broken(&report(&wrote)), []);
}

#[test]
fn only_one_that_has_written_nothing_commits_past_an_earlier_one() {
    for touch in [("write 1 0 0", "written -"), ("write 1 1 7", "written -")] {
        let steps = [&READ_ONLY[..4], &[touch, READ_ONLY[4]]].concat();
        let in_turn = (5, Claim::CommitsInTurn, Some(1));
        assert!(broken(&report(&steps)).contains(&in_turn), "{touch:?}");
        let waits = with(&steps, 5, "waits 0");
        assert_eq!(broken(&report(&waits)), [], "{touch:?}");
    }
}

/// Core 2 wrote, is set back by core 0 and only reads since; core 1 has written
/// what it reads.
const COMES_BACK: [(&str, &str); 10] = [
    ("begin 0 - -", "begun 0"),
    ("begin 1 - -", "begun 1"),
    ("begin 2 - -", "begun 2"),
    ("write 2 0 4", "written -"),
    ("write 0 0 5", "written -"),
    ("commit 0 - -", "committed 0"),
    ("write 1 0 6", "written -"),
    ("commit 2 - -", "setback -"),
    ("read 2 0 -", "value 5"),
    ("commit 2 - -", "committed 1"),
];

#[test]
fn what_an_earlier_attempt_wrote_does_not_count() {
    assert_eq!(broken(&report(&COMES_BACK)), []);
    let waits = report(&with(&COMES_BACK, 9, "waits 1"));
    assert_eq!(broken(&waits), [(9, Claim::ReadOnlyNeverWaits, Some(2))]);
    let wrote_again = [&COMES_BACK[..9], &[("write 2 0 5", "written -"), COMES_BACK[9]]].concat();
    assert!(report(&wrote_again).breaks(Claim::CommitsInTurn));
}

#[test]
fn a_marked_read_only_one_is_told_before_it_commits() {
    let untold = [&COMES_BACK[..7], &[("commit 2 - -", "committed 1")]].concat();
    let expected = [(7, Claim::ToldOnce, Some(2)), (7, Claim::AbortsReported, Some(2))];
    assert_eq!(broken(&report(&untold)), expected);
    let told = [&COMES_BACK[..8], &[("commit 2 - -", "committed 1")]].concat();
    assert_eq!(broken(&report(&told)), []);
}

#[test]
fn a_read_only_commit_strikes_nobody() {
    let told = [&READ_ONLY[..5], &[("commit 0 - -", "setback -")]].concat();
    assert_eq!(broken(&report(&told)), [(5, Claim::ToldOnce, Some(0))]);
    let counted = with(&READ_ONLY, 5, "committed 1");
    assert_eq!(broken(&report(&counted)), [(5, Claim::AbortsReported, Some(0))]);
}

#[test]
fn a_read_only_commit_raises_no_version() {
    let run = |version| {
        whole(&[
            ("begin 0 - -", Answer::Begun(0)),
            ("read 0 0 -", Answer::Value { value: 0, version: 0 }),
            ("commit 0 - -", Answer::Committed(0)),
            ("begin 1 - -", Answer::Begun(1)),
            ("read 1 0 -", Answer::Value { value: 0, version }),
        ])
    };
    assert_eq!(broken(&check(&run(0))), []);
    let expected = [(4, Claim::StoodTogether, Some(1)), (4, Claim::Versions, Some(1))];
    assert_eq!(broken(&check(&run(1))), expected);
}

#[test]
fn a_later_writer_waits_for_an_earlier_read_only_one() {
    let steps = [
        ("begin 0 - -", "begun 0"),
        ("begin 1 - -", "begun 1"),
        ("read 0 0 -", "value 0"),
        ("write 1 0 5", "written -"),
        ("commit 1 - -", "waits 0"),
        ("commit 0 - -", "committed 0"),
        ("commit 1 - -", "committed 0"),
    ];
    assert_eq!(broken(&report(&steps)), []);
    let passed = report(&with(&steps[..5], 4, "committed 0"));
    assert!(passed.breaks(Claim::CommitsInTurn) && passed.breaks(Claim::StruckByEarlier));
}

#[test]
fn a_read_only_one_is_replayed_where_it_committed() {
    // Core 1 commits before core 0 and reads the old value, and the new one after.
    let again = [("begin 1 - -", "begun 2"), ("read 1 0 -", "value 5"), READ_ONLY[4]];
    let steps = [&READ_ONLY[..], &again].concat();
    assert_eq!(broken(&report(&steps)), []);
    assert!(report(&with(&steps, 3, "value 5")).breaks(Claim::SerialReads));
    assert!(report(&with(&steps, 7, "value 0")).breaks(Claim::SerialReads));
}

#[test]
fn a_read_only_one_has_rounds_like_any_other() {
    // k = 1 and L = 1: six rounds, of which its read is in the first.
    let rounds = |count| [("commit 0 - -", "waits 1"), ("commit 1 - -", "waits 0")].repeat(count);
    let late = (13, Claim::RoundsBound, Some(1));
    let asks = |count| broken(&report(&[&READ_ONLY[..4], &rounds(count)].concat()));
    assert!(asks(5).contains(&late));
    assert!(!asks(4).iter().any(|&(_, claim, whose)| (claim, whose) == (late.1, late.2)));
}

/// Cores 2, 5 and 0 are in the way of core 4. Core 3 was begun before them and
/// touches another object, core 1 was begun last and is in conflict too; of the
/// 7 cores, core 6 has no transaction.
const CROWD: [(&str, &str); 13] = [
    ("begin 3 - -", "begun 0"),
    ("begin 2 - -", "begun 1"),
    ("begin 5 - -", "begun 2"),
    ("begin 0 - -", "begun 3"),
    ("begin 4 - -", "begun 4"),
    ("begin 1 - -", "begun 5"),
    ("write 3 1 9", "written -"),
    ("read 2 0 -", "value 0"),
    ("write 5 0 9", "written -"),
    ("read 0 0 -", "value 0"),
    ("write 4 0 9", "written -"),
    ("write 1 0 9", "written -"),
    ("commit 4 - -", "waits 2"),
];

/// The claims that are broken if the last commit of the crowd, after these
/// steps more, names this core.
fn named(more: &[(&str, &str)], core: u32) -> Vec<Claim> {
    let answer = format!("waits {core}");
    let steps = [&CROWD[..12], more, &[("commit 4 - -", &answer)]].concat();
    let report = check(&listed_on(7, &steps));
    let last = |b: &cards_reference::checker::Broken| {
        assert_eq!((b.call, b.transaction), (steps.len() - 1, Some(4)));
        b.claim
    };
    report.broken.iter().map(last).collect()
}

#[test]
fn named_by_waits_is_the_first() {
    assert_eq!(broken(&check(&listed_on(7, &CROWD))), []);
    assert_eq!(named(&[], 2), []);
    for later in [5, 0] {
        assert_eq!(named(&[], later), [Claim::NamedFirst], "core {later}");
    }
    let first_ended = [("giveup 2 - -", "ended -")];
    assert_eq!(named(&first_ended, 5), []);
    assert_eq!(named(&first_ended, 0), [Claim::NamedFirst]);
}

#[test]
fn named_by_waits_is_in_progress() {
    for core in [6, 7, 15, u32::MAX] {
        assert_eq!(named(&[], core), [Claim::NamedInProgress], "core {core}");
    }
    let first_ended = [("giveup 2 - -", "ended -")];
    assert_eq!(named(&first_ended, 2), [Claim::NamedInProgress]);
}

#[test]
fn named_by_waits_was_begun_earlier() {
    assert_eq!(named(&[], 1), [Claim::NamedEarlier, Claim::NamedFirst]);
    let itself = [Claim::NamedEarlier, Claim::NamedInConflict, Claim::NamedFirst];
    assert_eq!(named(&[], 4), itself);
    let begun_anew =
        [("giveup 2 - -", "ended -"), ("begin 2 - -", "begun 6"), ("write 2 0 7", "written -")];
    assert_eq!(named(&begun_anew, 2), [Claim::NamedEarlier, Claim::NamedFirst]);
}

#[test]
fn named_by_waits_is_in_conflict() {
    assert_eq!(named(&[], 3), [Claim::NamedInConflict]);
    let struck = [("read 2 1 -", "value 0"), ("commit 3 - -", "committed 0")];
    assert_eq!(named(&struck, 2), [Claim::NamedInConflict]);
    assert_eq!(named(&struck, 5), []);
}

#[test]
fn named_by_waits_where_the_answers_show_everything() {
    let run = |core| {
        whole(&[
            ("begin 1 - -", Answer::Begun(0)),
            ("begin 0 - -", Answer::Begun(1)),
            ("begin 2 - -", Answer::Begun(2)),
            ("write 1 0 1", Answer::Written),
            ("write 0 0 1", Answer::Written),
            ("write 2 0 1", Answer::Written),
            ("commit 2 - -", Answer::Waits { core }),
        ])
    };
    assert_eq!(broken(&check(&run(1))), []);
    assert_eq!(broken(&check(&run(0))), [(6, Claim::NamedFirst, Some(2))]);
}

#[test]
fn told_once() {
    let untold = with(&TOGETHER, 6, "waits 0");
    assert!(report(&untold).breaks(Claim::ToldOnce));

    let late = [&TOGETHER[..6], &[("read 1 2 -", "value 0")]].concat();
    assert_eq!(broken(&report(&late)), [(6, Claim::ToldOnce, Some(1))]);

    let twice = [&TOGETHER[..7], &[("read 1 2 -", "setback -")]].concat();
    assert_eq!(broken(&report(&twice)), [(7, Claim::ToldOnce, Some(1))]);

    let invented = [("begin 0 - -", "begun 0"), ("read 0 0 -", "setback -")];
    assert_eq!(broken(&report(&invented)), [(1, Claim::ToldOnce, Some(0))]);

    let given_up_untold = [&TOGETHER[..6], &[("giveup 1 - -", "ended -")]].concat();
    assert_eq!(broken(&report(&given_up_untold)), []);
    let refused_first = [&TOGETHER[..6], &[("read 1 9 -", "refused 5")], &TOGETHER[6..]].concat();
    assert_eq!(broken(&report(&refused_first)), []);
}

#[test]
fn aborts_reported() {
    let alone = [("begin 0 - -", "begun 0"), ("commit 0 - -", "committed 1")];
    assert_eq!(broken(&report(&alone)), [(1, Claim::AbortsReported, Some(0))]);
    let struck = |answer| [&TOGETHER[..9], &[("commit 1 - -", answer)]].concat();
    assert_eq!(broken(&report(&struck("committed 1"))), []);
    for wrong in ["committed 0", "committed 2"] {
        let expected = [(9, Claim::AbortsReported, Some(1))];
        assert_eq!(broken(&report(&struck(wrong))), expected);
    }
}

#[test]
fn rounds_bound() {
    let waits = ("commit 0 - -", "waits 0");
    let begun = ("begin 0 - -", "begun 0");
    let bound = (2, Claim::RoundsBound, Some(0));
    assert!(broken(&report(&[begun, waits, waits])).contains(&bound));
    assert!(!report(&[begun, waits]).breaks(Claim::RoundsBound));
    let given_up = [begun, waits, waits, ("giveup 0 - -", "ended -")];
    assert!(!report(&given_up).breaks(Claim::RoundsBound));
    let refused = [begun, ("read 0 9 -", "refused 5"), ("begin 0 - -", "refused 8")];
    let refused = [&refused[..], &refused[1..], &refused[1..]].concat();
    assert_eq!(broken(&report(&refused)), []);
}

#[test]
fn rounds_ask_only_the_group() {
    let waits = ("commit 1 - -", "waits 0");
    let steps = [
        ("begin 0 - -", "begun 0"),
        ("begin 1 - -", "begun 1"),
        ("begin 2 - -", "begun 2"),
        ("write 0 0 1", "written -"),
        ("write 1 0 2", "written -"),
    ];
    // Core 0 does not act again: core 1 may wait as long as it likes.
    let idle = [&steps[..], &[waits; 50]].concat();
    assert_eq!(broken(&report(&idle)), []);
    // Core 0 acts in each round; core 2 began later and need not act.
    let busy = [waits, ("commit 0 - -", "waits 1")].repeat(6);
    let rounds = report(&[&steps[..], &busy].concat());
    assert!(broken(&rounds).contains(&(14, Claim::RoundsBound, Some(1))));
}

/// A transaction on core 2 that takes all the rounds it may: k = 1, L = 1.
const TIGHT: [(&str, &str); 15] = [
    ("begin 0 - -", "begun 0"),
    ("begin 1 - -", "begun 1"),
    ("write 0 0 5", "written -"),
    ("read 1 0 -", "value 0"),
    ("commit 0 - -", "committed 0"),
    ("begin 2 - -", "begun 2"),
    ("write 2 0 7", "written -"),
    ("commit 1 - -", "setback -"),
    ("write 1 0 6", "written -"),
    ("commit 2 - -", "waits 1"),
    ("commit 2 - -", "waits 1"),
    ("commit 1 - -", "committed 1"),
    ("commit 2 - -", "setback -"),
    ("write 2 0 8", "written -"),
    ("commit 2 - -", "committed 1"),
];

#[test]
fn the_bound_is_reached_and_kept() {
    let tight = report(&TIGHT);
    assert_eq!(broken(&tight), []);
    let nearest = Nearest { rounds: 6, bound: 6 };
    assert_eq!(tight.nearest, Some(nearest));
    let late = [&TIGHT[..14], &[("commit 2 - -", "waits 1")], &TIGHT[14..]].concat();
    assert!(broken(&report(&late)).contains(&(14, Claim::RoundsBound, Some(2))));
}

#[test]
fn an_attempt_starts_at_the_strike() {
    // The dead attempt of core 1 has touched nothing since the strike, though
    // it is not told yet: core 2 commits past it.
    let steps = [
        ("begin 0 - -", "begun 0"),
        ("begin 1 - -", "begun 1"),
        ("begin 2 - -", "begun 2"),
        ("write 1 1 4", "written -"),
        ("read 1 0 -", "value 0"),
        ("write 0 0 5", "written -"),
        ("commit 0 - -", "committed 0"),
        ("write 2 1 7", "written -"),
        ("commit 2 - -", "committed 0"),
        ("read 1 1 -", "setback -"),
        ("read 1 1 -", "value 7"),
        ("commit 1 - -", "committed 1"),
    ];
    assert_eq!(broken(&report(&steps)), []);
    let waits = report(&with(&steps[..9], 8, "waits 1"));
    let expected = [(8, Claim::WaitsForEarlier, Some(2)), (8, Claim::NamedInConflict, Some(2))];
    assert_eq!(broken(&waits), expected);
}
