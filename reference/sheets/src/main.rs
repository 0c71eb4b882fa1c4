//! `compare-sheets [--seed S] [--count N]`: compares the C functions on sheets
//! with the reference: the shipped sheet's levels, all that lies one byte from
//! two sheets, and N seeds from S on; prints what was met. Ends with status 1 at
//! a difference, or if something was never met.
//! `compare-sheets --faults [--seed S] [--count N]`: alters what the function
//! leaves in one way after another; each must be found within N seeds.

mod door;

use cards_reference::lists::faults::{Wrong, FAULTS};
use cards_reference::lists::judge::{Difference, Door, Judge};
use cards_reference::lists::seeded::{compare, compare_near, compare_seed};
use cards_reference::options::{met, Options};
use cards_reference::sheet::{levels, SHIPPED};
use cards_reference::shrink::{shrink, Budget};
use door::{shipped, shipped_tasks, Linked};
use std::process::ExitCode;
use std::time::{Duration, Instant};

const USAGE: &str = "usage: compare-sheets [--faults] [--seed S] [--count N]";

/// How many seeds are tried where nothing is said.
const SEEDS: u64 = 20_000;

/// How long a shorter sheet is looked for.
const SEARCH: Duration = Duration::from_secs(60);

/// Places after the shipped sheet's last, near and far.
const PLACES_BEYOND: [usize; 6] = [6, 7, 31, 1 << 32, (1 << 32) + 5, usize::MAX];

/// Whether the shipped sheet's levels are the reference's, and 0 beyond.
fn shipped_agrees() -> bool {
    let right = levels(SHIPPED).expect("the shipped sheet is one");
    let count = shipped_tasks();
    let differ = |(place, line): &(usize, [u32; 3])| shipped(*place) != *line;
    let beyond = PLACES_BEYOND.map(|place| (place, [0; 3]));
    let lines = right.iter().copied().enumerate().chain(beyond);
    let wrong: Vec<(usize, [u32; 3])> = lines.filter(differ).collect();
    if count != right.len() {
        println!("the shipped sheet has {count} tasks, not {}", right.len());
    }
    for (place, line) in &wrong {
        println!("shipped, place {place}: {:?}, not {line:?}", shipped(*place));
    }
    count == right.len() && wrong.is_empty()
}

/// The first difference in these seeds, and its seed.
fn first_difference<D: Door>(judge: &mut Judge<D>, options: &Options) -> Option<(u64, Difference)> {
    options.seeds().find_map(|seed| compare_seed(judge, seed).err().map(|difference| (seed, difference)))
}

/// Prints a difference, and one in the shortest sheet found.
fn tell(seed: u64, difference: &Difference) {
    println!("differs {difference}");
    let mut judge = Judge::new(Linked);
    let budget = Budget { time: Some(SEARCH), ..Budget::default() };
    let mut differs = |sheet: &[u8]| compare(&mut judge, sheet, seed).is_err();
    let shortest = shrink(&difference.sheet, budget, &mut differs).script;
    if let Err(difference) = compare(&mut Judge::new(Linked), &shortest, seed) {
        println!("shortest: differs {difference}");
    }
}

fn compare_all(options: &Options) -> bool {
    let start = Instant::now();
    if !shipped_agrees() {
        return false;
    }
    let mut judge = Judge::new(Linked);
    if let Err(difference) = compare_near(&mut judge) {
        tell(0, &difference);
        return false;
    }
    if let Some((seed, difference)) = first_difference(&mut judge, options) {
        print!("seed {seed} ");
        tell(seed, &difference);
        return false;
    }
    let all = met(&judge.tally.lines(), &judge.tally.never_met());
    let seconds = start.elapsed().as_secs_f32();
    println!("compared {} lists in {seconds:.1} s, no difference", judge.tally.lists);
    all
}

fn find_faults(options: &Options) -> bool {
    let mut missed = 0;
    for &fault in FAULTS {
        let mut judge = Judge::new(Wrong { right: Linked, fault });
        if first_difference(&mut judge, options).is_none() {
            missed += 1;
            println!("not found: {}", fault.0);
        }
    }
    println!("found {} of {} faults", FAULTS.len() - missed, FAULTS.len());
    missed == 0
}

fn main() -> ExitCode {
    let Some(options) = Options::given(SEEDS) else {
        eprintln!("{USAGE}");
        return ExitCode::from(2);
    };
    let passed = if options.faults { find_faults(&options) } else { compare_all(&options) };
    ExitCode::from(u8::from(!passed))
}
