//! Compared calls by seed. Each seed is a run on one machine, with side steps
//! from its records: tables of a wrong length, records that are not sound or
//! nearly not, calls with numbers out of range. The run goes on where it was.

use super::border::near;
use super::broken::{broken, WAYS};
use super::crowd::crowd;
use super::judge::{Difference, Door, Judge, World};
use super::limits::near_limits;
use super::tally::RUNS;
use super::words::call_of;
use crate::answer::Answer;
use crate::call::Call;
use crate::contended::{Contention, Subject};
use crate::random::Random;
use crate::record::{Record, MAX_CORES, MAX_OBJECTS};
use crate::sound::sound;

/// Calls of a seed's run, without its side steps.
const RUN: usize = 600;
/// Side steps begin after so many calls of the run each.
const APART: usize = 2;
/// So many calls before the end the counts may be put near their limits.
const NEAR_THE_END: usize = 120;

/// Makes the calls of a seed; the first difference ends it.
pub fn compare_seed<D: Door>(judge: &mut Judge<D>, seed: u64) -> Result<(), Difference> {
    let mut random = Random::new(seed ^ 0x5eed);
    let (cores, objects) = sizes(&mut random);
    let mut contention = Contention::on(cores, objects, seed);
    let mut world = World { record: Record::blank(), committed: vec![], pending: vec![] };
    lend_right(&mut world, &mut random, cores, objects);
    refused_setups(judge, &world, &mut random)?;
    judge.call(RUNS, &mut world, Call::Setup { cores, objects })?;
    let aged = random.percent(25);
    for number in 0..RUN {
        if aged && number == RUN - NEAR_THE_END {
            world.record = near_limits(&world.record, &mut random);
        }
        let mut turn = Turn { judge, world: &mut world, difference: None };
        contention.step(&mut turn, number);
        if let Some(difference) = turn.difference {
            return Err(difference);
        }
        if number % APART == 0 {
            side_step(judge, &world, &mut random)?;
        }
    }
    Ok(())
}

/// Any size, the largest and the smallest often, and few objects often.
fn sizes(random: &mut Random) -> (u32, u32) {
    let any_cores = 1 + random.below(16);
    let any_objects = 1 + random.below(64);
    let cores = *random.pick(&[any_cores, any_cores, any_cores, 2, 3, 16, 16]);
    let objects = *random.pick(&[any_objects, any_objects, 1, 2, 3, 63, 64]);
    (cores, objects)
}

/// Lends tables of the right length, with any words.
fn lend_right(world: &mut World, random: &mut Random, cores: u32, objects: u32) {
    let words = (cores * objects) as usize;
    world.committed = (0..objects).map(|_| random.bits() as u32).collect();
    world.pending = (0..words).map(|_| random.bits() as u32).collect();
}

/// A call of the run, made by both.
struct Turn<'a, D> {
    judge: &'a mut Judge<D>,
    world: &'a mut World,
    difference: Option<Difference>,
}

impl<D: Door> Subject for Turn<'_, D> {
    fn call(&mut self, call: Call) -> Answer {
        match self.judge.call(RUNS, self.world, call) {
            Ok(answer) => answer,
            Err(difference) => {
                self.difference = Some(difference);
                Answer::Refused(0)
            }
        }
    }

    fn committed(&self) -> &[u32] {
        &self.world.committed
    }
}

fn side_step<D: Door>(
    judge: &mut Judge<D>,
    world: &World,
    random: &mut Random,
) -> Result<(), Difference> {
    match random.below(13) {
        0 => wrong_tables(judge, world, random),
        1 | 2 => break_alone(judge, world, random),
        3 => refused_setups(judge, world, random),
        4 => odd_numbers(judge, world, random),
        5 => fill_list(judge, world, random),
        6 => go_to_limits(judge, world, random),
        7 => commit_in_a_crowd(judge, world, random),
        _ => go_near(judge, world, random),
    }
}

/// Setups of sizes that are refused, and of tables that do not fit, on tables
/// that hold words.
fn refused_setups<D: Door>(
    judge: &mut Judge<D>,
    world: &World,
    random: &mut Random,
) -> Result<(), Difference> {
    let mut lent = world.clone();
    let (cores, objects) = sizes(random);
    let wrong_cores = *random.pick(&[0, 17, 255, 256 + cores, 65_536 + cores, u32::MAX]);
    let wrong_objects = *random.pick(&[0, 65, 255, 256 + objects, 65_536 + objects, u32::MAX]);
    let (cores, objects) = match random.below(4) {
        0 => (wrong_cores, objects),
        1 => (cores, wrong_objects),
        2 => (wrong_cores, wrong_objects),
        _ => {
            lend_right(&mut lent, random, cores, objects);
            misfit(&mut lent, random);
            (cores, objects)
        }
    };
    judge.call("refused setups", &mut lent, Call::Setup { cores, objects })?;
    Ok(())
}

/// Makes one table or both of a wrong length.
fn misfit(world: &mut World, random: &mut Random) {
    let tables = 1 + random.below(3);
    let mut wrong = |table: &mut Vec<u32>| match random.below(4) {
        0 => table.truncate(table.len().saturating_sub(1)),
        1 => table.push(7),
        2 => table.clear(),
        _ => {
            let length = random.place(1_100);
            table.resize(length, 7)
        }
    };
    if tables & 1 != 0 {
        wrong(&mut world.committed);
    }
    if tables & 2 != 0 {
        wrong(&mut world.pending);
    }
}

/// Each of the seven calls with tables of a wrong length; some of them name
/// nothing too.
fn wrong_tables<D: Door>(
    judge: &mut Judge<D>,
    world: &World,
    random: &mut Random,
) -> Result<(), Difference> {
    for number in 1..8 {
        let mut lent = world.clone();
        misfit(&mut lent, random);
        let call = some_call(number, &lent.record, random);
        judge.call("wrong tables", &mut lent, call)?;
    }
    Ok(())
}

/// Each of the seven calls on a record that breaks one standing rule alone; for
/// some of them another refusal applies too.
fn break_alone<D: Door>(
    judge: &mut Judge<D>,
    world: &World,
    random: &mut Random,
) -> Result<(), Difference> {
    let way = random.place(WAYS.len());
    let Some(record) = broken(way, &world.record, random) else {
        return Ok(());
    };
    for number in 1..8 {
        let mut lent = World { record, ..world.clone() };
        if random.percent(20) {
            misfit(&mut lent, random);
        }
        let call = some_call(number, &world.record, random);
        let answer = judge.call("a rule broken alone", &mut lent, call)?;
        assert_eq!(answer, Answer::Refused(2), "a record that breaks a rule is unsound");
        judge.tally.count_broken(way, call);
    }
    Ok(())
}

/// Calls with numbers that name nothing.
fn odd_numbers<D: Door>(
    judge: &mut Judge<D>,
    world: &World,
    random: &mut Random,
) -> Result<(), Difference> {
    for number in 1..8 {
        let mut lent = world.clone();
        let call = odd_call(number, &lent.record, random);
        judge.call("odd numbers", &mut lent, call)?;
    }
    Ok(())
}

/// A call on a record near the border of soundness; a few more if the record is
/// sound.
fn go_near<D: Door>(
    judge: &mut Judge<D>,
    world: &World,
    random: &mut Random,
) -> Result<(), Difference> {
    let mut lent = World { record: near(&world.record, random), ..world.clone() };
    let Record { cores, objects, .. } = lent.record;
    if (cores, objects) != (world.record.cores, world.record.objects) && random.percent(90) {
        lend_right(&mut lent, random, cores, objects);
    }
    let is_sound = sound(&lent.record);
    judge.tally.count_border(is_sound);
    for _ in 0..if is_sound { 6 } else { 1 } {
        let number = 1 + random.place(7);
        let call = fitting_call(number, &lent.record, random);
        judge.call("near the border", &mut lent, call)?;
    }
    Ok(())
}

/// A core is given jobs until its list is full and one more, with deadlines that
/// are near each other, and then works.
fn fill_list<D: Door>(
    judge: &mut Judge<D>,
    world: &World,
    random: &mut Random,
) -> Result<(), Difference> {
    let mut lent = world.clone();
    let core = random.below(lent.record.cores);
    for number in [1, 1, 1, 1, 2, 1, 1, 1, 1, 1, 6, 2, 5, 7, 1, 7, 7] {
        let (job, deadline) = (random.below(65_536), random.below(4));
        judge.call("full lists", &mut lent, call_of(number, core, job, deadline))?;
    }
    Ok(())
}

/// Calls on a record with counts near their limits.
fn go_to_limits<D: Door>(
    judge: &mut Judge<D>,
    world: &World,
    random: &mut Random,
) -> Result<(), Difference> {
    let mut lent = World { record: near_limits(&world.record, random), ..world.clone() };
    for _ in 0..12 {
        let number = *random.pick(&[1, 2, 2, 3, 4, 5, 5, 6, 7]);
        let call = fitting_call(number, &lent.record, random);
        judge.call("near the limits", &mut lent, call)?;
    }
    Ok(())
}

/// Each core asks to commit in a crowd.
fn commit_in_a_crowd<D: Door>(
    judge: &mut Judge<D>,
    world: &World,
    random: &mut Random,
) -> Result<(), Difference> {
    let record = crowd(&world.record, random);
    assert!(sound(&record), "a crowd is sound");
    for core in 0..record.cores {
        let mut lent = World { record, ..world.clone() };
        judge.call("in a crowd", &mut lent, Call::Commit { core })?;
    }
    Ok(())
}

/// A call that is likely to be accepted on this record.
fn fitting_call(number: usize, record: &Record, random: &mut Random) -> Call {
    let in_progress = matches!(number, 3..=6);
    let cores = (record.cores as usize).clamp(1, MAX_CORES);
    let fits: Vec<u32> = (0..cores)
        .filter(|&core| record.core[core].in_progress == in_progress)
        .map(|core| core as u32)
        .collect();
    let any_core = random.below(cores as u32);
    let core = if fits.is_empty() { any_core } else { *random.pick(&fits) };
    let object = random.below(record.objects.clamp(1, MAX_OBJECTS as u32));
    let deadline = record.core[core as usize].jobs[random.place(8)].deadline;
    let value = if number == 1 { deadline } else { random.bits() as u32 };
    call_of(number, core, object, value)
}

/// A call on any core, often one that the machine lacks, with any object.
fn odd_call(number: usize, record: &Record, random: &mut Random) -> Call {
    let Record { cores, objects, .. } = *record;
    let any_core = random.below(cores);
    let any_object = random.below(objects);
    let core = *random.pick(&[cores, 16, 255, 256 + any_core, u32::MAX, any_core, any_core]);
    let object = *random.pick(&[objects, 64, 255, 256 + any_object, u32::MAX, any_object]);
    call_of(number, core, object, random.bits() as u32)
}

/// Mostly a call that is likely to be accepted.
fn some_call(number: usize, record: &Record, random: &mut Random) -> Call {
    match random.percent(70) {
        true => fitting_call(number, record, random),
        false => odd_call(number, record, random),
    }
}
