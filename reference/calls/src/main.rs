//! `compare-calls [--seed S] [--count N]`: compares the public calls of the
//! first implementation with the reference's, N seeds from S on, and prints what
//! was met. Ends with status 1 at a difference, or if something was never met.
//! `compare-calls --faults [--seed S] [--count N]`: alters what the calls leave
//! in one way after another; each must be found within N seeds.

mod door;

use cards_reference::compared::faults::{faults, Wrong};
use cards_reference::compared::judge::{Difference, Door, Judge};
use cards_reference::compared::seeded::compare_seed;
use cards_reference::options::{met, Options};
use door::Linked;
use std::process::ExitCode;
use std::time::Instant;

const USAGE: &str = "usage: compare-calls [--faults] [--seed S] [--count N]";

/// How many seeds are tried where nothing is said.
const SEEDS: u64 = 100;

/// The first difference in these seeds, and its seed.
fn first_difference<D: Door>(judge: &mut Judge<D>, options: &Options) -> Option<(u64, Difference)> {
    options.seeds().find_map(|seed| compare_seed(judge, seed).err().map(|difference| (seed, difference)))
}

fn compare(options: &Options) -> bool {
    let start = Instant::now();
    let mut judge = Judge::new(Linked);
    if let Some((seed, difference)) = first_difference(&mut judge, options) {
        println!("seed {seed} differs after {} calls, {difference}", judge.tally.calls);
        return false;
    }
    let all = met(&judge.tally.lines(), &judge.tally.never_met());
    let seconds = start.elapsed().as_secs_f32();
    println!("compared {} calls in {seconds:.1} s, no difference", judge.tally.calls);
    all
}

fn find_faults(options: &Options) -> bool {
    let faults = faults();
    let mut missed = 0;
    for fault in &faults {
        let mut judge = Judge::new(Wrong { right: Linked, fault });
        if first_difference(&mut judge, options).is_none() {
            missed += 1;
            println!("not found: {}", fault.name);
        }
    }
    println!("found {} of {} faults", faults.len() - missed, faults.len());
    missed == 0
}

fn main() -> ExitCode {
    let Some(options) = Options::given(SEEDS) else {
        eprintln!("{USAGE}");
        return ExitCode::from(2);
    };
    let passed = if options.faults { find_faults(&options) } else { compare(&options) };
    ExitCode::from(u8::from(!passed))
}
