//! The generators: the same seed gives the same bytes, everything they promise
//! to make is made, and the reference's own runs break no claim.

mod common;

use cards_reference::answer::Answer;
use cards_reference::call::Call;
use cards_reference::checker::{check, Nearest, Run};
use cards_reference::contended::Contention;
use cards_reference::listed_runs::listed_runs;
use cards_reference::machine::Machine;
use cards_reference::random::Random;
use cards_reference::readers::{ReaderCases, CASES};
use cards_reference::replay::first_difference;
use cards_reference::script::{listed, listing_of, parse_names};
use cards_reference::scripts::{names_line, orders, quick_script, script, LONGEST_ONE_IN};
use cards_reference::waiting::Waiting;
use common::{machine, CROWD};
use std::collections::BTreeSet;

#[test]
fn runs_of_the_reference_break_no_claim() {
    let mut nearest: Option<Nearest> = None;
    for seed in 0..600 {
        let mut contention = Contention::new(seed);
        let run = contention.run(&mut Machine::blank(), 1_000);
        let report = check(&run);
        assert_eq!(report.broken, [], "seed {seed}");
        assert_eq!(first_difference(&run), None, "seed {seed}");
        if let Some(near) = report.nearest {
            nearest = Some(nearest.map_or(near, |old| old.nearer(near)));
        }
    }
    let nearest = nearest.expect("some transaction began");
    println!("nearest to the bound: {nearest:?}, ratio {:.4}", nearest.ratio());
    assert!(nearest.rounds <= nearest.bound);
    assert!(nearest.ratio() > 0.95, "the runs press on the bound: {nearest:?}");
}

/// Every answer word but setup's, and every refusal number that a run on sound
/// records and right tables can give.
const SEEN: [&str; 16] = [
    "begun",
    "committed",
    "ended",
    "finished",
    "queued",
    "refused 4",
    "refused 5",
    "refused 6",
    "refused 7",
    "refused 8",
    "refused 9",
    "running",
    "setback",
    "value",
    "waits",
    "written",
];

#[test]
fn runs_have_every_answer_and_refusal() {
    let mut seen = BTreeSet::new();
    let mut most_aborts = 0;
    for seed in 0..200 {
        let run = Contention::new(seed).run(&mut Machine::blank(), 500);
        for (_, answer) in run.steps {
            seen.insert(match answer {
                Answer::Refused(number) => format!("refused {number}"),
                _ => listed(answer).0.to_string(),
            });
            if let Answer::Committed(aborts) = answer {
                most_aborts = most_aborts.max(aborts);
            }
        }
    }
    assert_eq!(seen.into_iter().collect::<Vec<_>>(), SEEN);
    assert!(most_aborts >= 5, "only {most_aborts} aborts");
}

/// How often commits wait, and with whom about.
#[derive(Debug, Default)]
struct Waits {
    all: usize,
    /// The first in the way is not on the least core of those in the way.
    not_least: usize,
    /// One that is even earlier is not in conflict.
    bystander: usize,
    /// The first is neither on the least nor on the greatest core, and one that
    /// is even earlier is not in conflict.
    between: usize,
    /// And a later one is in conflict.
    crowd: usize,
    /// Runs or scripts in which that is met.
    with_crowd: usize,
}

impl Waits {
    fn add(&mut self, runs: &[Run]) {
        let before = self.crowd;
        for waiting in runs.iter().flat_map(waitings) {
            self.all += 1;
            self.not_least += usize::from(waiting.not_least);
            self.bystander += usize::from(waiting.bystander);
            let between = waiting.not_least && waiting.not_greatest;
            self.between += usize::from(between && waiting.bystander);
            self.crowd += usize::from(waiting.in_a_crowd());
        }
        self.with_crowd += usize::from(self.crowd > before);
    }

    /// Adds the runs of a script.
    fn add_script(&mut self, script: &[u8]) {
        self.add(&runs_of(script));
    }
}

/// The runs of a script.
fn runs_of(script: &[u8]) -> Vec<Run> {
    let shown = listed_runs(script, &listing_of(script)).expect("a good listing");
    shown.into_iter().map(|shown| shown.run).collect()
}

/// What stands around each commit of the run that waits.
fn waitings(run: &Run) -> Vec<Waiting> {
    let mut machine = Machine::blank();
    machine.call(Call::Setup { cores: run.cores, objects: run.objects });
    let mut waitings = Vec::new();
    for &(call, _) in &run.steps {
        let before = machine.record;
        if let (Answer::Waits { .. }, Some(core)) = (machine.call(call), call.core()) {
            waitings.push(Waiting::of(&before, core as usize).expect("somebody in the way"));
        }
    }
    waitings
}

#[test]
fn who_is_about_when_a_commit_waits() {
    let record = machine(&CROWD).record;
    let (bystander, follower) = (true, true);
    let of_4 = Waiting { in_the_way: 3, not_least: true, not_greatest: true, bystander, follower };
    let of_5 = Waiting { in_the_way: 1, not_least: false, not_greatest: false, ..of_4 };
    assert_eq!(Waiting::of(&record, 4), Some(of_4));
    assert_eq!(Waiting::of(&record, 1), Some(Waiting { in_the_way: 4, follower: false, ..of_4 }));
    assert_eq!(Waiting::of(&record, 5), Some(of_5));
    assert_eq!(Waiting::of(&record, 3), None);
    let mut alone = record;
    alone.core[3] = alone.core[3].without_transaction();
    assert_eq!(Waiting::of(&alone, 4), Some(Waiting { bystander: false, ..of_4 }));
    assert!(of_4.in_a_crowd() && !of_5.in_a_crowd());
}

#[test]
fn contended_runs_wait_in_crowds() {
    let mut waits = Waits::default();
    for seed in 0..600 {
        waits.add(&[Contention::new(seed).run(&mut Machine::blank(), 1_000)]);
    }
    println!("{waits:?}");
    assert!(waits.all > 30_000, "{waits:?}");
    assert!(waits.between * 20 > waits.all, "{waits:?}");
    assert!(waits.crowd * 30 > waits.all, "{waits:?}");
    assert!(waits.with_crowd > 100, "{waits:?}");
}

#[test]
fn scripts_wait_in_crowds() {
    let (mut quick, mut few, mut any) = (Waits::default(), Waits::default(), Waits::default());
    for seed in 1..=10_000 {
        let script = quick_script(seed);
        quick.add_script(&script);
        if lines_of(&script) < 20 {
            few.add_script(&script);
        }
    }
    (1..=300).for_each(|seed| any.add_script(&script(seed)));
    println!("quick: {quick:?}\nof few lines: {few:?}\nof any length: {any:?}");
    assert!(quick.between * 20 > quick.all && quick.with_crowd > 150, "{quick:?}");
    assert!(few.not_least > 20 && few.bystander > 50, "{few:?}");
    assert!(any.between * 40 > any.all && any.with_crowd > 15, "{any:?}");
}

/// How often each of the cases of readers is met, and in how many runs or scripts.
#[derive(Default)]
struct ReadersMet {
    all: [usize; CASES.len()],
    with: [usize; CASES.len()],
}

impl ReadersMet {
    fn add(&mut self, runs: &[Run]) {
        let mut met = [0; CASES.len()];
        runs.iter().flat_map(reader_cases).for_each(|case| met[case] += 1);
        for (case, met) in met.into_iter().enumerate() {
            self.all[case] += met;
            self.with[case] += usize::from(met > 0);
        }
    }

    /// Prints the counts.
    fn print(&self, of: &str) {
        println!("{of}:");
        for (case, name) in CASES.iter().enumerate() {
            println!("  {name}: {}, in {}", self.all[case], self.with[case]);
        }
    }

    /// Each case is met in so many runs or scripts, at least.
    fn each_in(&self, least: [usize; CASES.len()]) {
        for (case, name) in CASES.iter().enumerate() {
            assert!(self.with[case] >= least[case], "{name}: only in {}", self.with[case]);
        }
    }
}

/// The cases that a run shows, one after another.
fn reader_cases(run: &Run) -> Vec<usize> {
    let mut machine = Machine::blank();
    machine.call(Call::Setup { cores: run.cores, objects: run.objects });
    let (mut cases, mut seen) = (ReaderCases::default(), Vec::new());
    for &(call, _) in &run.steps {
        let before = machine.record;
        let answer = machine.call(call);
        let shown = cases.see(&before, call, answer, machine.committed(), machine.pending());
        seen.extend((0..CASES.len()).filter(|&case| shown[case]));
    }
    seen
}

#[test]
fn contended_runs_have_readers() {
    let mut met = ReadersMet::default();
    for seed in 0..600 {
        met.add(&[Contention::new(seed).run(&mut Machine::blank(), 1_000)]);
    }
    met.print("600 contended runs");
    met.each_in([250, 25, 250, 140, 250, 250, 250, 70, 150]);
}

#[test]
fn scripts_have_readers() {
    let (mut quick, mut few, mut any) =
        (ReadersMet::default(), ReadersMet::default(), ReadersMet::default());
    for seed in 1..=10_000 {
        let script = quick_script(seed);
        let runs = runs_of(&script);
        quick.add(&runs);
        if lines_of(&script) < 20 {
            few.add(&runs);
        }
    }
    (1..=300).for_each(|seed| any.add(&runs_of(&script(seed))));
    quick.print("10,000 quick scripts");
    few.print("those of fewer than 20 lines");
    any.print("300 scripts of any length");
    quick.each_in([800, 40, 550, 160, 450, 700, 400, 120, 280]);
    few.each_in([90, 1, 70, 35, 75, 15, 50, 30, 50]);
    any.each_in([60, 1, 45, 15, 40, 55, 40, 8, 25]);
}

#[test]
fn scripts_are_fixed_by_their_seed() {
    for seed in 0..50 {
        assert_eq!(script(seed), script(seed));
    }
    assert_ne!(script(1), script(2));
}

fn some_script(shape: impl Fn(&[u8]) -> bool) -> bool {
    (0..3_000).any(|seed| shape(&script(seed)))
}

fn some_line(shape: impl Fn(&[u8]) -> bool) -> bool {
    some_script(|script| script.split(|&byte| byte == b'\n').skip(1).any(&shape))
}

#[test]
fn scripts_come_in_every_shape() {
    assert!(some_script(|script| script.is_empty()));
    assert!(some_script(|script| script.ends_with(b"\n")));
    assert!(some_script(|script| script.len() > 100 && !script.ends_with(b"\n")));
    assert!(some_script(|script| script.iter().filter(|&&b| b == b'\n').count() > 2_000));
    for order in orders() {
        assert!(some_script(|script| script.starts_with(&names_line(order))));
    }
    let names = |script: &[u8]| script.split(|&byte| byte == b'\n').next().map(parse_names);
    assert!(some_script(|script| script.len() > 100 && names(script) == Some(None)));
}

#[test]
fn lines_are_spoiled_in_every_way() {
    for length in [0, 64, 65, 200_000] {
        assert!(some_line(|line| line.len() == length), "{length} bytes");
    }
    for byte in [b'\r', b'\0', b'\t', b'+', 0xff] {
        assert!(some_line(|line| line.contains(&byte)), "byte {byte}");
    }
    let holds = |line: &[u8], word: &str| String::from_utf8_lossy(line).contains(word);
    for word in ["  ", "65535", "65536", "4294967295", "4294967296", " 007", " 00", "SETUP"] {
        assert!(some_line(|line| holds(line, word)), "{word:?}");
    }
    assert!(some_line(|line| line.starts_with(b" ")));
    assert!(some_line(|line| line.ends_with(b" ")));
}

#[test]
fn some_script_reaches_past_the_last_line() {
    let long = (0..30_000).filter(|&seed| Random::new(seed).below(LONGEST_ONE_IN) == 0);
    let ends: BTreeSet<String> = long
        .map(|seed| {
            let listing = String::from_utf8(listing_of(&script(seed))).expect("text");
            listing.lines().last().expect("a heading").to_string()
        })
        .collect();
    assert!(ends.contains("1000001 refused 11"), "{ends:?}");
    assert!(ends.iter().any(|end| end.starts_with("1000000 ")), "{ends:?}");
}

#[test]
fn listings_of_scripts_break_no_claim() {
    for seed in 0..300 {
        let script = script(seed);
        let runs = listed_runs(&script, &listing_of(&script)).expect("a good listing");
        for shown in runs {
            assert_eq!(check(&shown.run).broken, [], "seed {seed}");
            assert_eq!(first_difference(&shown.run), None, "seed {seed}");
        }
    }
}

fn lines_of(script: &[u8]) -> usize {
    script.split_inclusive(|&byte| byte == b'\n').count()
}

/// What 20,000 quick scripts have between them.
#[test]
fn quick_scripts_have_every_length_order_and_byte() {
    let mut lengths = BTreeSet::new();
    let mut names = BTreeSet::new();
    let mut bytes = [false; 256];
    let mut total = 0;
    for seed in 1..=20_000 {
        let script = quick_script(seed);
        lengths.insert(lines_of(&script));
        names.insert(script.split(|&byte| byte == b'\n').next().map(<[u8]>::to_vec));
        script.iter().for_each(|&byte| bytes[usize::from(byte)] = true);
        total += lines_of(&script);
    }
    assert_eq!((lengths.first(), lengths.contains(&1)), (Some(&0), true));
    assert!(lengths.contains(&20_000), "{:?}", lengths.last());
    assert!(orders().into_iter().all(|order| names.contains(&Some(names_line(order)))));
    assert!(bytes.iter().all(|&seen| seen));
    assert!(total < 4_000_000, "{total} lines take long");
}

/// What scripts of fewer than 20 lines have between them: every answer and
/// refusal of a run, two setbacks of one transaction among them.
#[test]
fn quick_scripts_of_few_lines_have_every_answer() {
    let short = (1..=10_000).map(quick_script).filter(|script| lines_of(script) < 20);
    let listings: Vec<String> =
        short.map(|script| String::from_utf8(listing_of(&script)).expect("text")).collect();
    assert!(listings.len() > 2_000, "{} scripts of few lines", listings.len());
    for answer in SEEN.into_iter().chain(["refused 1\n", "refused 2", "refused 11", "committed 2"])
    {
        let seen = listings.iter().any(|listing| listing.contains(&format!(" {answer}")));
        assert!(seen, "{answer}");
    }
}

/// Contended runs at each number of cores: waits and setbacks are met.
#[test]
fn quick_scripts_contend_at_each_number_of_cores() {
    let mut met = BTreeSet::new();
    for seed in 1..=3_000 {
        let script = quick_script(seed);
        for shown in listed_runs(&script, &listing_of(&script)).expect("a good listing") {
            for (_, answer) in &shown.run.steps {
                match answer {
                    Answer::SetBack | Answer::Waits { .. } => {
                        met.insert((shown.run.cores, listed(*answer).0))
                    }
                    _ => met.insert((shown.run.cores, "")),
                };
            }
        }
    }
    for cores in 1..=16 {
        assert!(met.contains(&(cores, "")), "{cores} cores");
        let contended = met.contains(&(cores, "setback")) && met.contains(&(cores, "waits"));
        assert_eq!(contended, cores > 1, "{cores} cores");
    }
}
