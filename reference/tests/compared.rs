//! The comparison of single calls, with the reference behind the door: it finds
//! no difference, meets all that it must meet, and finds each fault.

use cards_reference::call::Call;
use cards_reference::compared::faults::{faults, Wrong};
use cards_reference::compared::judge::{Door, Judge};
use cards_reference::compared::lent::Lent;
use cards_reference::compared::seeded::compare_seed;
use cards_reference::compared::words::{
    call_of, name_of, numbers, spell, Told, RECORD_WORDS, VERSIONS,
};
use cards_reference::machine::dispatch;
use cards_reference::record::Record;

/// The reference as a door.
struct Reference;

impl Door for Reference {
    fn call(&mut self, given: &Record, call: Call, lent: &mut Lent) -> u32 {
        let (committed, pending) = (lent.committed.lend(), lent.pending.lend());
        let (answer, after) = dispatch(*given, call, committed, pending);
        let told = Told::from(answer);
        let words = lent.record.lend();
        words[..RECORD_WORDS].copy_from_slice(&spell(&after));
        words[RECORD_WORDS..].copy_from_slice(&told.values);
        told.kind
    }
}

#[test]
fn no_difference_and_everything_met() {
    let mut judge = Judge::new(Reference);
    for seed in 1..=300 {
        if let Err(difference) = compare_seed(&mut judge, seed) {
            panic!("seed {seed}, {difference}");
        }
    }
    assert_eq!(judge.tally.never_met(), [""; 0]);
}

#[test]
fn a_seed_gives_the_same_calls() {
    let lines = [(); 2].map(|()| {
        let mut judge = Judge::new(Reference);
        assert!(compare_seed(&mut judge, 7).is_ok());
        judge.tally.lines()
    });
    assert_eq!(lines[0], lines[1]);
}

#[test]
fn nothing_tried_is_nothing_met() {
    assert!(!Judge::new(Reference).tally.never_met().is_empty());
}

#[test]
fn each_fault_is_found() {
    let faults = faults();
    assert!(faults.len() > 100);
    for fault in &faults {
        let mut judge = Judge::new(Wrong { right: Reference, fault });
        let found = (1..=100).any(|seed| compare_seed(&mut judge, seed).is_err());
        assert!(found, "{}", fault.name);
    }
}

type Change = fn(&mut Record);

#[test]
fn each_field_has_its_word() {
    let blank = spell(&Record::blank());
    let changes: [(&str, Change); 9] = [
        ("cores", |r| r.cores = 255),
        ("give ups", |r| r.give_ups = 1),
        ("core 0: number of job 0", |r| r.core[0].jobs[0].number = 65_535),
        ("core 15: deadline of job 7", |r| r.core[15].jobs[7].deadline = 1),
        ("core 1: job count", |r| r.core[1].job_count = 9),
        ("core 2: zombie", |r| r.core[2].zombie = true),
        ("core 3: read set, upper half", |r| r.core[3].read_set = 1 << 32),
        ("core 15: write set, upper half", |r| r.core[15].write_set = 1 << 63),
        ("version of object 63", |r| r.versions[63] = 1),
    ];
    for (name, change) in changes {
        let mut record = Record::blank();
        change(&mut record);
        let words = spell(&record);
        let differ: Vec<String> =
            (0..RECORD_WORDS).filter(|&place| words[place] != blank[place]).map(name_of).collect();
        assert_eq!(differ, [name]);
    }
    assert_eq!((VERSIONS, RECORD_WORDS), (421, 485));
}

#[test]
fn a_call_is_its_numbers() {
    for number in 0..8 {
        let call = call_of(number, 3, 5, 7);
        let [place, core, ..] = numbers(call);
        assert_eq!((place as usize, core), (number, 3));
        let [_, core, object, value] = numbers(call);
        assert_eq!(call_of(number, core, object, value), call);
    }
}
