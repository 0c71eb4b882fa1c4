//! Sheets by seed: each shape and each way is made, and each way's sheets are
//! accepted or refused as it says.

use cards_reference::sheet::{read, task_levels, transaction_levels, Task, SHIPPED};
use cards_reference::sheets::{made, near, sheet, Fate, SHAPES, WAYS};
use std::collections::{BTreeMap, BTreeSet};

const SEEDS: std::ops::RangeInclusive<u64> = 1..=20_000;

/// For each shape and each way its fate, and how many of its sheets were
/// accepted and how many refused.
fn counts() -> BTreeMap<&'static str, (Fate, [u32; 2])> {
    let mut counts = BTreeMap::new();
    for made in SEEDS.map(made) {
        let (_, fates) = counts.entry(made.how).or_insert((made.fate, [0; 2]));
        fates[usize::from(read(&made.bytes).is_none())] += 1;
    }
    counts
}

#[test]
fn each_shape_and_each_way_is_made() {
    let counts = counts();
    let alone = ["the shipped sheet", "all zeros", "the longest sheet"];
    let names: Vec<&str> = SHAPES.iter().map(|shape| shape.0).chain(alone).collect();
    for name in names.iter().chain(WAYS.iter().map(|(name, ..)| name)) {
        assert!(counts.contains_key(name), "{name}");
    }
    assert_eq!(counts.len(), names.len() + WAYS.len());
    for (how, (fate, [accepted, refused])) in counts {
        let right = match fate {
            Fate::Accepted => accepted > 50 && refused == 0,
            Fate::Refused => accepted == 0 && refused > 100,
            Fate::Either => accepted > 20 && refused > 20,
        };
        assert!(right, "{how}: {accepted} accepted, {refused} refused");
    }
}

/// Of the damaged sheets a good share is refused, and a good share of those that
/// may be accepted is.
#[test]
fn damaged_sheets_are_of_both_kinds() {
    let damaged = SEEDS.map(made).filter(|made| WAYS.iter().any(|way| way.0 == made.how));
    let (accepted, refused): (Vec<_>, Vec<_>) =
        damaged.partition(|made| read(&made.bytes).is_some());
    assert!(refused.len() > 7_000 && accepted.len() > 1_500);
}

#[test]
fn a_seed_gives_the_same_sheet() {
    assert_eq!(sheet(7), sheet(7));
    assert_eq!(made(7).bytes, sheet(7));
}

#[test]
fn all_that_lies_one_byte_away() {
    let (bytes, length) = (b"ab", 2);
    let near: Vec<Vec<u8>> = near(bytes).collect();
    assert_eq!(near.len(), 3 + length + 256 * length + 256 * (length + 1));
    for one in [&b""[..], b"a", b"ab", b"b", b"xb", b"a\n", b"\0ab", b"a-b", b"ab\xff"] {
        assert!(near.iter().any(|other| other == one), "{}", one.escape_ascii());
    }
}

#[test]
fn many_that_lie_one_byte_away_are_sheets() {
    assert!(near(SHIPPED).filter(|sheet| read(sheet).is_some()).count() > 500);
}

/// Which tasks are joined by a path of tasks, each two neighbours of which use a
/// common object: paths with tasks below 0, 1, 2, .. between their ends.
fn paths(tasks: &[Task]) -> Vec<Vec<bool>> {
    let common = |a: &Task, b: &Task| a.objects & b.objects != 0;
    let mut joined: Vec<Vec<bool>> =
        tasks.iter().map(|a| tasks.iter().map(|b| common(a, b)).collect()).collect();
    let places = 0..tasks.len();
    for between in places.clone() {
        for start in places.clone() {
            for end in places.clone() {
                joined[start][end] |= joined[start][between] && joined[between][end];
            }
        }
    }
    joined
}

/// The levels as the paper's sentences say them, one task after another.
#[test]
fn levels_by_paths() {
    for tasks in SEEDS.filter_map(|seed| read(&sheet(seed))) {
        let level = |own: &Task| {
            let deadlines: BTreeSet<u32> = tasks.iter().map(|task| task.deadline).collect();
            deadlines.range(own.deadline..).count() as u32
        };
        let highest = |reached: Vec<bool>| {
            let group = tasks.iter().zip(reached).filter(|(_, reached)| *reached);
            group.map(|(task, _)| level(task)).max().unwrap_or(0)
        };
        let own: Vec<u32> = tasks.iter().map(level).collect();
        assert_eq!(task_levels(&tasks), own);
        let transactions: Vec<u32> = paths(&tasks).into_iter().map(highest).collect();
        assert_eq!(transaction_levels(&tasks, &own), transactions);
    }
}
