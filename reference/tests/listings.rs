//! Runs taken out of a script and its listing.

mod common;

use cards_reference::answer::Answer;
use cards_reference::checker::{check, Claim};
use cards_reference::listed_runs::{listed_runs, ListedRun};
use common::NAMES;

/// The runs of these script lines and listing lines, both without their first
/// line.
fn runs(script: &[&str], listing: &[&str]) -> Result<Vec<ListedRun>, String> {
    let script = format!("{NAMES}\n{}\n", script.join("\n"));
    let listing = format!("line answer value\n{}\n", listing.join("\n"));
    listed_runs(script.as_bytes(), listing.as_bytes())
}

fn fault(script: &[&str], listing: &[&str]) -> String {
    runs(script, listing).err().unwrap_or_default()
}

#[test]
fn a_run_starts_at_each_setup() {
    let script = ["begin 0 - -", "setup 1 1 -", "release 0 1 1", "x", "setup 2 3 -", "begin 0 - -"];
    let listing =
        ["2 refused 2", "3 ready -", "4 running -", "5 refused 11", "6 ready -", "7 refused 7"];
    let runs = runs(&script, &listing).expect("a good listing");
    let shapes = runs.iter().map(|shown| (shown.run.cores, shown.run.objects, &shown.lines[..]));
    assert_eq!(shapes.collect::<Vec<_>>(), [(1, 1, &[4][..]), (2, 3, &[7][..])]);
}

#[test]
fn after_a_refused_setup_only_refusals_fit() {
    let script = ["setup 1 1 -", "setup 0 1 -", "begin 0 - -"];
    let good = runs(&script, &["2 ready -", "3 refused 1", "4 refused 2"]).expect("runs");
    assert!(check(&good[1].run).broken.is_empty());
    let bad = runs(&script, &["2 ready -", "3 refused 1", "4 begun 0"]).expect("runs");
    assert!(check(&bad[1].run).breaks(Claim::AnswerFits));
}

#[test]
fn waits_shows_a_core() {
    let script = ["setup 16 1 -", "commit 0 - -", "commit 1 - -"];
    let shown = runs(&script, &["2 ready -", "3 waits 0", "4 waits 12"]).expect("runs");
    let answers: Vec<Answer> = shown[0].run.steps.iter().map(|(_, answer)| *answer).collect();
    assert_eq!(answers, [Answer::Waits { core: 0 }, Answer::Waits { core: 12 }]);
    assert_eq!(fault(&script, &["2 ready -", "3 waits -"]), "line 3 is not listed");
}

#[test]
fn a_listing_that_does_not_fit_its_script_is_told() {
    let none = listed_runs(NAMES.as_bytes(), b"");
    assert_eq!(none.err().as_deref(), Some("the listing has no heading"));
    let setup = ["setup 1 1 -"];
    assert_eq!(fault(&setup, &["3 ready -"]), "line 2 is not listed");
    assert_eq!(fault(&setup, &["2 readily -"]), "line 2 is not listed");
    assert_eq!(fault(&setup, &["2 ready 0"]), "line 2 is not listed");
    assert_eq!(fault(&setup, &["2 refused 11"]), "line 2 is not read as it should be");
    assert_eq!(fault(&["setup 1 1"], &["2 ready -"]), "line 2 is not read as it should be");
    assert_eq!(fault(&["setup 1 65 -"], &["2 ready -"]), "line 2 is not answered as a setup");
    assert_eq!(fault(&setup, &["2 queued -"]), "line 2 is not answered as a setup");
    assert_eq!(fault(&["begin 0 - -"], &["2 begun 0"]), "line 2 has no setup before it");
}

#[test]
fn a_bad_names_line_shows_no_run() {
    let runs = listed_runs(b"call\nsetup 1 1 -\n", b"line answer value\n1 refused 11\n");
    assert_eq!(runs.expect("no fault").len(), 0);
}
