//! The shrinker, on failures whose shortest script is known.

use cards_reference::choices::{count_below, Choices, Counts, Lines};
use cards_reference::random::Random;
use cards_reference::shrink::{self, Budget, Shrunk, Trials};
use std::collections::BTreeSet;
use std::time::Duration;

type Fails<'a> = &'a mut dyn FnMut(&[u8]) -> bool;

/// The shrinker with this budget.
fn shrink_by(budget: Budget, script: &[u8], fails: Fails) -> Shrunk {
    shrink::shrink(script, budget, &mut |script: &[u8]| fails(script))
}

/// The shrinker with so many trials.
fn shrink_within(trials: u64, script: &[u8], fails: Fails) -> Shrunk {
    shrink_by(Budget { trials: Some(trials), time: None }, script, fails)
}

/// The shortest script: without a budget it is surely one of the fewest lines.
fn shrink(script: &[u8], fails: Fails) -> Vec<u8> {
    let shrunk = shrink_by(Budget::default(), script, fails);
    assert!(shrunk.is_fewest() || shrunk.script == script);
    shrunk.script
}

fn holds(script: &[u8], word: &str) -> bool {
    String::from_utf8_lossy(script).contains(word)
}

#[test]
fn two_lines_far_apart_are_kept() {
    let mut lines: Vec<String> = (0..1_000).map(|number| format!("line {number}")).collect();
    lines[77] = "left".to_string();
    lines[912] = "right".to_string();
    let script = lines.join("\n");
    let mut fails = |script: &[u8]| holds(script, "left\n") && holds(script, "\nright");
    assert_eq!(shrink(script.as_bytes(), &mut fails), b"left\nright");
}

#[test]
fn lines_that_only_go_together_are_cut_as_a_pair() {
    let script = b"keep\nopen\na\nb\nc\nclose\n";
    let even = |script: &[u8]| holds(script, "open") == holds(script, "close");
    let mut fails = |script: &[u8]| holds(script, "keep") && even(script);
    assert_eq!(shrink(script, &mut fails), b"keep");
}

#[test]
fn bytes_within_a_line_are_cut() {
    let script = b"aaaaaaXaaaaaaYaaaa\nbbbb\n";
    let mut fails = |script: &[u8]| {
        let x = script.iter().position(|&byte| byte == b'X');
        let y = script.iter().position(|&byte| byte == b'Y');
        x.is_some() && y > x
    };
    assert_eq!(shrink(script, &mut fails), b"XY");
}

#[test]
fn a_failure_of_every_script_shrinks_to_nothing() {
    assert_eq!(shrink(b"a\nb\nc", &mut |_| true), b"");
    assert_eq!(shrink(b"", &mut |_| true), b"");
}

#[test]
fn a_script_that_does_not_fail_is_left_alone() {
    assert_eq!(shrink(b"a\nb\n", &mut |_| false), b"a\nb\n");
}

#[test]
fn the_result_still_fails_and_no_line_can_go() {
    let script: Vec<u8> = (0..300).flat_map(|n: u32| format!("{n}\n").into_bytes()).collect();
    let sum = |script: &[u8]| -> u64 {
        let text = String::from_utf8_lossy(script).into_owned();
        text.lines().filter_map(|line| line.parse::<u64>().ok()).sum()
    };
    let mut fails = |script: &[u8]| sum(script) >= 1_000 && script.len() <= 4_000;
    let shortest = shrink_within(100_000, &script, &mut fails).script;
    assert!(fails(&shortest));
    let lines: Vec<&[u8]> = shortest.split_inclusive(|&byte| byte == b'\n').collect();
    for place in 0..lines.len() {
        let fewer = [&lines[..place], &lines[place + 1..]].concat().concat();
        assert!(!fails(&fewer));
    }
}

/// A failure that needs the four lines k, and of a, b and c all or none.
fn all_or_none(script: &[u8]) -> bool {
    let kept = script.iter().filter(|&&byte| byte == b'k').count() == 4;
    let there = [b'a', b'b', b'c'].map(|byte| script.contains(&byte));
    kept && there.iter().all(|&one| one == there[0])
}

const ALL_OR_NONE: &[u8] = b"k\na\nk\nb\nk\nc\nk\n";

/// No stretch, no line and no pair of them can go.
#[test]
fn three_lines_that_only_go_together_are_cut() {
    assert_eq!(shrink(ALL_OR_NONE, &mut all_or_none), b"kkkk");
}

/// The same among 16 lines: the lines left are too many to try every choice of
/// them first, but different choices of all lines are few.
#[test]
fn among_more_lines_they_are_cut_if_the_trials_are_enough() {
    let script = [ALL_OR_NONE, &b"x\n".repeat(9)].concat();
    let crosses =
        |script: &[u8]| script.split(|&byte| byte == b'\n').filter(|&l| l == b"x").count();
    let mut fails = |script: &[u8]| all_or_none(script) && crosses(script) == 9;
    let fewest = shrink_within(10_000, &script, &mut fails);
    assert!(fails(&fewest.script) && !fewest.script.contains(&b'a'));
    assert!(fewest.is_fewest());
    let stuck = shrink_within(100, &script, &mut fails);
    assert!(fails(&stuck.script) && stuck.script.contains(&b'a'));
    assert!(!stuck.is_fewest());
}

/// Two ways to fail: lines a, b and c are all there, or x and y are and none of
/// a, b and c.
fn two_ways(script: &[u8]) -> bool {
    let lines: Vec<&[u8]> = script.split(|&byte| byte == b'\n').collect();
    let there = |line: &&[u8]| lines.contains(line);
    let (one, other): ([&[u8]; 3], [&[u8]; 2]) = ([b"a", b"b", b"c"], [b"x", b"y"]);
    one.iter().all(there) || other.iter().all(there) && !one.iter().any(there)
}

/// Taking lines away while the rest fails leads to a, b and c, of which none
/// can go.
const TWO_WAYS: &[u8] = b"a\nx\nb\ny\nc\n";

#[test]
fn fewer_lines_are_found_among_those_cut_before() {
    let shrunk = shrink_within(100, TWO_WAYS, &mut two_ways);
    assert_eq!(shrunk.script, b"x\ny");
    assert_eq!((shrunk.lines(), shrunk.tried_below, shrunk.is_fewest()), (2, 2, true));
}

/// The 1 + 5 choices of none and of one line are tried, the 10 of two are not.
#[test]
fn too_few_trials_are_owned_up_to() {
    let shrunk = shrink_within(15, TWO_WAYS, &mut two_ways);
    assert_eq!(shrunk.script, b"a\nb\nc");
    assert_eq!((shrunk.lines(), shrunk.tried_below, shrunk.is_fewest()), (3, 2, false));
    assert!(shrink_within(16, TWO_WAYS, &mut two_ways).is_fewest());
}

#[test]
fn too_little_time_is_owned_up_to() {
    let budget = Budget { trials: None, time: Some(Duration::ZERO) };
    let shrunk = shrink_by(budget, TWO_WAYS, &mut two_ways);
    assert_eq!(shrunk.script, TWO_WAYS);
    assert_eq!((shrunk.tried_below, shrunk.is_fewest()), (0, false));
}

/// Of twenty equal lines there is one choice of each size.
#[test]
fn equal_choices_are_tried_once() {
    let script = b"x\n".repeat(20);
    let shrunk = shrink_within(20, &script, &mut |part| part == script);
    assert_eq!((shrunk.is_fewest(), shrunk.tried), (true, 20));
}

/// Up to nine lines, few of them different.
fn few_lines(random: &mut Random) -> Vec<u8> {
    let different = 1 + random.below(4);
    let count = random.below(10);
    let lines = (0..count).map(|_| format!("{}\n", random.below(different)));
    lines.collect::<String>().into_bytes()
}

/// The scripts made by choosing so many lines, found by choosing in every way.
fn every_choice(script: &[u8], size: usize) -> BTreeSet<Vec<u8>> {
    let lines: Vec<&[u8]> = script.split_inclusive(|&byte| byte == b'\n').collect();
    let chosen = |mask: &u32| mask.count_ones() as usize == size;
    let script_of = |mask: u32| {
        let kept = lines.iter().enumerate().filter(|(place, _)| mask >> place & 1 == 1);
        kept.flat_map(|(_, line)| line.to_vec()).collect()
    };
    (0..1 << lines.len()).filter(chosen).map(script_of).collect()
}

#[test]
fn different_choices_come_once_and_are_counted() {
    let mut random = Random::new(1);
    for _ in 0..300 {
        let script = few_lines(&mut random);
        let lines = Lines::of(&script);
        let mut below = 0;
        for (size, count) in Counts::of(&lines).take(11).enumerate() {
            let expected = every_choice(&script, size);
            let choices: Vec<Vec<u8>> = Choices::of(&lines, size).collect();
            assert_eq!(choices.iter().cloned().collect::<BTreeSet<_>>(), expected);
            assert_eq!((choices.len(), count), (expected.len(), expected.len() as u64));
            assert_eq!(count_below(&script, size), below);
            below += count;
        }
    }
}

#[test]
fn too_many_choices_are_not_counted() {
    let script: Vec<u8> = (0..1_000).flat_map(|n: u32| format!("{n}\n").into_bytes()).collect();
    assert_eq!(count_below(&script, 4), 1 + 1_000 + 499_500 + 166_167_000);
    assert_eq!(count_below(&script, 500), u64::MAX);
    let lines = Lines::of(&script);
    assert_eq!(Counts::of(&lines).take(500).last(), Some(u64::MAX));
    assert_eq!(count_below(&b"\n".repeat(100_000), 100_000), u64::MAX);
}

/// Nothing is assumed of what makes a script fail: here it is a number that
/// depends on every byte, of whole lines.
#[test]
fn without_a_budget_the_fewest_are_found() {
    let mut random = Random::new(2);
    for seed in 0..300 {
        let script = few_lines(&mut random);
        let mut fails = |part: &[u8]| {
            let digest = part.iter().fold(seed, |d, &b| Random::new(d ^ u64::from(b)).bits());
            let whole = part.chunks(2).all(|line| line.len() == 2 && line[1] == b'\n');
            part == script || (whole && digest % 20 == 0)
        };
        let failing = (0..).find(|&size| every_choice(&script, size).iter().any(|s| fails(s)));
        let shrunk = shrink_by(Budget::default(), &script, &mut fails);
        assert!(fails(&shrunk.script));
        assert_eq!((Some(shrunk.lines()), shrunk.is_fewest()), (failing, true));
    }
}

/// Ten lines of twenty; what a search was told before.
struct Ten(Vec<(usize, u64)>);

fn lines_of(script: &[u8]) -> usize {
    script.iter().filter(|&&byte| byte == b'\n').count()
}

impl Trials for Ten {
    fn first_failing(&mut self, scripts: &[Vec<u8>]) -> Option<usize> {
        scripts.iter().position(|script| lines_of(script) >= 10)
    }

    fn before_long_search(&mut self, shortest: &[u8], choices: u64) {
        self.0.push((lines_of(shortest), choices));
    }
}

#[test]
fn a_long_search_is_told_before() {
    let script: Vec<u8> = (b'a'..b'u').flat_map(|letter| [letter, b'\n']).collect();
    let mut ten = Ten(Vec::new());
    let shrunk = shrink::shrink(&script, Budget::default(), &mut ten);
    assert_eq!((shrunk.lines(), shrunk.is_fewest()), (10, true));
    assert_eq!(ten.0, [(10, 431_910)]);
    assert!(shrunk.tried >= 431_910);
}

/// A script fails if its numbers sum up to 100, or to 60. No stretch, no line
/// and no pair of them has a sum of 40, but four lines have.
#[test]
fn the_fewest_of_the_lines_left_are_found() {
    let numbers = [30, 5, 30, 7, 9, 19];
    let script: Vec<u8> = numbers.iter().flat_map(|n| format!("{n}\n").into_bytes()).collect();
    let mut fails = |script: &[u8]| {
        let text = String::from_utf8_lossy(script).into_owned();
        let lines: Vec<u32> = text.lines().filter_map(|line| line.parse().ok()).collect();
        lines.iter().all(|line| numbers.contains(line)) && [60, 100].contains(&lines.iter().sum())
    };
    assert_eq!(shrink(&script, &mut fails), b"30\n30");
}
