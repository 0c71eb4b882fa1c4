//! The comparison of lists, with the reference behind the door: it finds no
//! difference, meets all that it must meet, and finds each fault.

use cards_reference::compared::lent::Fenced;
use cards_reference::lists::faults::{Wrong, FAULTS};
use cards_reference::lists::judge::{Door, Judge};
use cards_reference::lists::seeded::{compare_near, compare_seed};
use cards_reference::sheet::fill;

/// The reference as a door.
struct Reference;

impl Door for Reference {
    fn fill(&mut self, sheet: &[u8], list: &mut Fenced) -> usize {
        fill(sheet, list.lend())
    }
}

#[test]
fn no_difference_and_everything_met() {
    let mut judge = Judge::new(Reference);
    for seed in 1..=5_000 {
        assert!(compare_seed(&mut judge, seed).is_ok(), "seed {seed}");
    }
    assert_eq!(judge.tally.never_met(), [""; 0]);
    assert!(compare_near(&mut judge).is_ok());
}

#[test]
fn nothing_tried_is_nothing_met() {
    assert!(!Judge::new(Reference).tally.never_met().is_empty());
}

#[test]
fn each_fault_is_found() {
    for &fault in FAULTS {
        let mut judge = Judge::new(Wrong { right: Reference, fault });
        let found = (1..=300).any(|seed| compare_seed(&mut judge, seed).is_err());
        assert!(found, "{}", fault.0);
    }
}

#[test]
fn a_difference_is_told() {
    let fault = FAULTS[0];
    let mut judge = Judge::new(Wrong { right: Reference, fault });
    let told =
        judge.lend(b"task core deadline cards\n7 0 5 -\n", &[9; 4]).map_err(|d| d.to_string());
    let expected = "with a list of 4 words, a sheet of 33 bytes:\n  task core deadline cards\\n\n  7 0 5 -\\n\ncount: 2, not 1";
    assert_eq!(told, Err(expected.to_string()));
}
