//! Contended runs by seed: few objects, many cores, some refused calls. Some
//! cores are displays, which read many objects and write none; in some runs many
//! read one object and write others.

use crate::answer::Answer;
use crate::call::Call;
use crate::checker::{Detail, Run};
use crate::machine::Machine;
use crate::random::Random;

/// A machine that a run can be made on, and whose committed values can be seen.
pub trait Subject {
    fn call(&mut self, call: Call) -> Answer;
    fn committed(&self) -> &[u32];
}

impl Subject for Machine {
    fn call(&mut self, call: Call) -> Answer {
        Machine::call(self, call)
    }

    fn committed(&self) -> &[u32] {
        Machine::committed(self)
    }
}

/// Whose turn it is to call.
#[derive(Clone, Copy)]
enum Turns {
    Any,
    Rising,
    Falling,
}

/// What an attempt does before it asks to commit.
#[derive(Clone, Copy, Default)]
enum Habit {
    /// Reads and writes.
    #[default]
    Mixed,
    /// Reads only, one object after another from this one on.
    ReadOnly { from: u32 },
    /// Writes the values that are there.
    Keeps,
    /// Reads an object that others read too, and then writes its own.
    Shares,
}

/// What the generator remembers of a core, from the answers it heard.
#[derive(Clone, Copy, Default)]
struct Seat {
    /// Every attempt is read-only.
    display: bool,
    jobs: u32,
    open: bool,
    done: u32,
    planned: u32,
    habit: Habit,
}

/// Makes up calls, and hears their answers.
pub struct Contention {
    pub cores: u32,
    pub objects: u32,
    random: Random,
    turns: Turns,
    turn: u32,
    /// Reads and writes before an attempt asks to commit, at most.
    length: u32,
    /// All attempts have this length, and all begin at the start.
    even: bool,
    /// The share of any calls at all, many of them refused, in a hundred.
    odd: u32,
    /// The share of writes among reads and writes, in a hundred.
    writes: u32,
    /// The share of give-ups among commits, in a hundred.
    give_ups: u32,
    /// The share of read-only attempts, in a hundred, and half as many that keep
    /// what is there, on cores that are no displays.
    read_only: u32,
    /// The share of the other attempts that read one object and write their own, in
    /// a hundred.
    shares: u32,
    /// Reads of a read-only attempt, at most.
    frame: u32,
    /// The objects that most reads and writes go to.
    hot: Vec<u32>,
    /// How often a crowd begins, in a hundred calls.
    crowds: u32,
    /// The calls of a crowd or of a display that are still to be made, the last
    /// one first.
    ahead: Vec<Call>,
    seats: Vec<Seat>,
}

impl Contention {
    /// Chooses the machine and the shape of the run by the seed. Three runs in
    /// ten have crowds, on a machine of some cores more; in some of the others many
    /// read one object.
    pub fn new(seed: u64) -> Contention {
        let mut random = Random::new(seed);
        let most_cores = *random.pick(&[2, 4, 4, 8, 16]);
        let cores = 1 + random.below(most_cores);
        let objects = *random.pick(&[1, 1, 2, 2, 3, 4, 8, 10, 12, 64]);
        if random.percent(30) {
            let cores = 4 + random.below(13);
            let shaped = Contention::shaped(random, cores, objects);
            let writes = shaped.writes.max(60);
            return Contention { even: false, crowds: 5, writes, ..shaped };
        }
        let mut shaped = Contention::shaped(random, cores, objects);
        if objects > 1 {
            shaped.shares = *shaped.random.pick(&[0, 0, 60]);
        }
        shaped
    }

    /// Chooses the shape of the run by the seed, for this machine.
    pub fn on(cores: u32, objects: u32, seed: u64) -> Contention {
        Contention::shaped(Random::new(seed), cores, objects)
    }

    /// Chooses a small machine and short attempts by the seed: in few calls
    /// there is a wait or a setback.
    pub fn small(seed: u64) -> Contention {
        let mut random = Random::new(seed);
        let cores = *random.pick(&[1, 2, 2, 2, 2, 3]);
        let objects = *random.pick(&[1, 1, 2]);
        let length = 1 + random.below(2);
        let shaped = Contention::shaped(random, cores, objects);
        Contention { length, frame: length, ..shaped }
    }

    /// Chooses a crowd by the seed, on this many cores: the run begins with it.
    pub fn crowd(cores: u32, seed: u64) -> Contention {
        let mut random = Random::new(seed);
        let objects = *random.pick(&[1, 1, 2]);
        let shaped = Contention::shaped(random, cores, objects);
        let writes = shaped.writes.max(60);
        Contention { even: false, crowds: 100, writes, ..shaped }
    }

    fn shaped(mut random: Random, cores: u32, objects: u32) -> Contention {
        let even = random.percent(30);
        let displays = *random.pick(&[0, 0, 15, 40]);
        let seat = |display| Seat { display, ..Seat::default() };
        let seats = (0..cores).map(|_| seat(random.percent(displays))).collect();
        Contention {
            cores,
            objects,
            turns: *random.pick(&[Turns::Any, Turns::Any, Turns::Rising, Turns::Falling]),
            turn: 0,
            length: *random.pick(&[1, 2, 3, 5, 8]),
            even,
            odd: if even { 0 } else { *random.pick(&[0, 5, 20]) },
            writes: *random.pick(&[40, 60, 90, 100]),
            give_ups: if even { 0 } else { *random.pick(&[0, 0, 5]) },
            hot: [0, 1, 31, 32, 62, 63].into_iter().filter(|&object| object < objects).collect(),
            crowds: 0,
            ahead: Vec::new(),
            read_only: if displays > 0 { 20 } else { 0 },
            shares: 0,
            frame: 12.min(2 * objects),
            seats,
            random,
        }
    }

    /// Makes a setup and then so many calls on the subject.
    pub fn run(&mut self, subject: &mut impl Subject, calls: usize) -> Run {
        let (cores, objects) = (self.cores, self.objects);
        let ready = subject.call(Call::Setup { cores, objects });
        assert_eq!(ready, Answer::Ready, "the setup of a run is accepted");
        let mut steps = Vec::with_capacity(calls);
        let mut tables = Vec::new();
        for number in 0..calls {
            let (call, answer) = self.step(subject, number);
            steps.push((call, answer));
            if let Answer::Committed(_) = answer {
                tables.push(subject.committed().to_vec());
            }
        }
        Run {
            cores,
            objects,
            steps,
            detail: Detail::Whole,
            tables: Some(tables),
            last_table: Some(subject.committed().to_vec()),
        }
    }

    /// Makes the call of this number after the setup.
    pub fn step(&mut self, subject: &mut impl Subject, number: usize) -> (Call, Answer) {
        let committed = subject.committed();
        if self.crowds > 0 && self.ahead.is_empty() && self.random.percent(self.crowds) {
            self.ahead = self.next_crowd(committed);
        }
        let planned = self.opening(number).or_else(|| self.ahead.pop());
        let call = planned.unwrap_or_else(|| self.next_call(committed));
        let answer = subject.call(call);
        self.hear(call, answer);
        (call, answer)
    }

    /// An even run lets every core release and begin, in order, first.
    fn opening(&mut self, number: usize) -> Option<Call> {
        let core = (number / 2) as u32;
        let opens = self.even && core < self.cores;
        opens.then(|| match number % 2 {
            0 => self.release(core),
            _ => Call::Begin { core },
        })
    }

    /// The calls of a crowd, the last one first. All begin anew, in any order; up
    /// to two of the earliest touch nothing, the others one of two objects at
    /// most; the latest ask to commit first.
    fn next_crowd(&mut self, committed: &[u32]) -> Vec<Call> {
        let order = self.random.shuffled(self.cores);
        let mut calls = Vec::new();
        for &core in &order {
            let Seat { jobs, open, .. } = self.seats[core as usize];
            calls.extend(open.then_some(Call::GiveUp { core }));
            calls.extend((jobs == 0).then(|| self.release(core)));
        }
        calls.extend(order.iter().map(|&core| Call::Begin { core }));
        let (asides, shared) = (self.random.place(3), 1 + self.random.place(2));
        for &core in order.iter().skip(asides) {
            let object = self.hot[self.random.place(shared.min(self.hot.len()))];
            let habit = self.next_habit(core);
            calls.push(self.touch(core, object, habit, committed));
        }
        calls.extend(order.iter().rev().map(|&core| Call::Commit { core }));
        calls.reverse();
        calls
    }

    fn next_call(&mut self, committed: &[u32]) -> Call {
        if self.random.percent(self.odd) {
            return self.any_call();
        }
        let core = self.next_core();
        let seat = self.seats[core as usize];
        if !seat.open {
            return self.idle_call(core, seat);
        }
        if seat.done < seat.planned {
            self.access(core, seat, committed)
        } else if self.random.percent(self.give_ups) {
            Call::GiveUp { core }
        } else {
            Call::Commit { core }
        }
    }

    fn next_core(&mut self) -> u32 {
        self.turn = (self.turn + 1) % self.cores;
        match self.turns {
            Turns::Any => self.random.below(self.cores),
            Turns::Rising => self.turn,
            Turns::Falling => self.cores - 1 - self.turn,
        }
    }

    /// What a core without a transaction does: mostly it begins one.
    fn idle_call(&mut self, core: u32, seat: Seat) -> Call {
        if seat.jobs == 0 || (seat.jobs < 8 && self.random.percent(10)) {
            self.release(core)
        } else if self.random.percent(15) {
            Call::Finish { core }
        } else {
            if seat.display && self.random.percent(50) {
                self.ahead = self.at_a_stretch(core);
            }
            Call::Begin { core }
        }
    }

    /// The reads of a display and its commit, the last one first. Nobody calls in
    /// between.
    fn at_a_stretch(&mut self, core: u32) -> Vec<Call> {
        let from = *self.random.pick(&self.hot);
        let fewer = 1 + self.random.below(self.frame);
        let reads = if self.random.percent(60) { self.frame } else { fewer };
        let mut calls = vec![Call::Commit { core }];
        calls.extend((from..from + reads).map(|d| Call::Read { core, object: d % self.objects }));
        calls
    }

    fn release(&mut self, core: u32) -> Call {
        Call::Release { core, job: self.random.below(65_536) as u16, deadline: self.word() }
    }

    fn access(&mut self, core: u32, seat: Seat, committed: &[u32]) -> Call {
        let any_object = self.random.below(self.objects);
        let hot_object = *self.random.pick(&self.hot);
        let object = match seat.habit {
            Habit::ReadOnly { from } => (from + seat.done) % self.objects,
            Habit::Shares if seat.done == 0 => 0,
            Habit::Shares => return self.write_own(core),
            _ if self.random.percent(80) => hot_object,
            _ => any_object,
        };
        self.touch(core, object, seat.habit, committed)
    }

    /// A write of an object that few others write, and that is not the first one.
    fn write_own(&mut self, core: u32) -> Call {
        Call::Write { core, object: 1 + core % (self.objects - 1), value: self.word() }
    }

    fn touch(&mut self, core: u32, object: u32, habit: Habit, committed: &[u32]) -> Call {
        match habit {
            Habit::Keeps => Call::Write { core, object, value: committed[object as usize] },
            Habit::Mixed if self.random.percent(self.writes) => {
                Call::Write { core, object, value: self.word() }
            }
            _ => Call::Read { core, object },
        }
    }

    /// What the next attempt on a core does.
    fn next_habit(&mut self, core: u32) -> Habit {
        let display = self.seats[core as usize].display;
        if display || self.random.percent(self.read_only) {
            return Habit::ReadOnly { from: self.random.below(self.objects) };
        }
        if self.random.percent(self.read_only / 2) {
            return Habit::Keeps;
        }
        match self.shares > 0 && self.random.percent(self.shares) {
            true => Habit::Shares,
            false => Habit::Mixed,
        }
    }

    /// A small number, so that equal ones are met, or one near the limit.
    fn word(&mut self) -> u32 {
        let small = self.random.below(10);
        if self.random.percent(90) {
            small
        } else {
            u32::MAX - small
        }
    }

    /// Any of the seven calls, on cores and objects that may not exist.
    fn any_call(&mut self) -> Call {
        let core = self.random.below(self.cores + 1);
        let object = self.random.below(self.objects + 1);
        match self.random.below(7) {
            0 => self.release(core),
            1 => Call::Begin { core },
            2 => Call::Read { core, object },
            3 => Call::Write { core, object, value: self.word() },
            4 => Call::Commit { core },
            5 => Call::GiveUp { core },
            _ => Call::Finish { core },
        }
    }

    /// Remembers what an answer says about the core that called.
    fn hear(&mut self, call: Call, answer: Answer) {
        let Some(core) = call.core().filter(|&core| core < self.cores) else {
            return;
        };
        if matches!(answer, Answer::Begun(_) | Answer::SetBack) {
            return self.plan(core);
        }
        let seat = &mut self.seats[core as usize];
        match answer {
            Answer::Running | Answer::Queued => seat.jobs += 1,
            Answer::Finished(_) => seat.jobs = seat.jobs.saturating_sub(1),
            Answer::Value { .. } | Answer::Written => seat.done += 1,
            Answer::Committed(_) | Answer::Ended => seat.open = false,
            _ => {}
        }
    }

    /// Plans the next attempt of a core.
    fn plan(&mut self, core: u32) {
        let habit = self.next_habit(core);
        let any_length = match habit {
            Habit::ReadOnly { .. } => self.random.below(self.frame + 1),
            Habit::Shares => 1 + self.random.below(2),
            _ => self.random.below(self.length + 1),
        };
        let planned = if self.even { self.length } else { any_length };
        let seat = &mut self.seats[core as usize];
        *seat = Seat { open: true, done: 0, planned, habit, ..*seat };
    }
}
