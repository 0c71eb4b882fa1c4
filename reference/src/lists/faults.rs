//! Doors that are wrong on purpose: what a right door left is altered in one
//! way. A comparison is worth something if it finds each of them.

use super::judge::Door;
use crate::compared::lent::Fenced;
use crate::sheet::{lines, read, task_levels, transaction_levels, Task};

/// What the door was given and what it left.
pub struct Left<'a> {
    sheet: &'a [u8],
    count: usize,
    /// The words of the list before.
    given: Vec<u32>,
    list: &'a mut Fenced,
}

impl Left<'_> {
    fn refused(&self) -> bool {
        self.count == 0
    }

    /// The tasks of a sheet that is one, though the list may be too short.
    fn tasks(&self) -> Vec<Task> {
        read(self.sheet).unwrap_or_default()
    }

    /// Changes a word, if there is one.
    fn change(&mut self, place: Option<usize>) {
        if let Some(word) = place.and_then(|place| self.list.lend().get_mut(place)) {
            *word ^= 1;
        }
    }

    /// Fills in other levels, three words for each task.
    fn levels(&mut self, levels: impl Fn(&[Task]) -> Vec<[u32; 3]>) {
        if !self.refused() {
            let words = levels(&self.tasks());
            self.list.lend()[..3 * self.count].copy_from_slice(words.as_flattened());
        }
    }

    /// Fills in other transaction levels, from the tasks, their own levels and a
    /// place.
    fn transactions(&mut self, level: fn(&[Task], &[u32], usize) -> u32) {
        self.levels(|tasks| {
            let own = task_levels(tasks);
            let group: Vec<u32> = (0..tasks.len()).map(|place| level(tasks, &own, place)).collect();
            lines(tasks, &own, &group)
        });
    }

    /// Fills in other task levels, from the tasks and one of them; transaction
    /// levels follow by the right groups.
    fn task_levels(&mut self, level: fn(&[Task], &Task) -> usize) {
        self.levels(|tasks| {
            let own: Vec<u32> = tasks.iter().map(|task| level(tasks, task) as u32).collect();
            lines(tasks, &own, &transaction_levels(tasks, &own))
        });
    }
}

/// A way to be wrong, by its name.
pub type Fault = (&'static str, fn(&mut Left));

/// A door that is wrong in one way.
pub struct Wrong<D> {
    pub right: D,
    pub fault: Fault,
}

impl<D: Door> Door for Wrong<D> {
    fn fill(&mut self, sheet: &[u8], list: &mut Fenced) -> usize {
        let given = list.words().to_vec();
        let count = self.right.fill(sheet, list);
        let mut left = Left { sheet, count, given, list };
        (self.fault.1)(&mut left);
        left.count
    }
}

/// Every fault.
pub const FAULTS: &[Fault] = &[
    ("one task too many is told", |left| left.count += usize::from(!left.refused())),
    ("one task too few is told", |left| left.count = left.count.saturating_sub(1)),
    ("a refusal is told by its number", |left| {
        if left.refused() {
            left.count = 13;
        }
    }),
    ("no sheet is refused", |left| left.count = left.count.max(1)),
    ("a word of the first task", |left| left.change((!left.refused()).then_some(0))),
    ("a word of the last task", |left| left.change((3 * left.count).checked_sub(1))),
    ("the word after the last task's", |left| {
        left.change((!left.refused()).then_some(3 * left.count));
    }),
    ("the last word of a longer list", |left| {
        let last = left.given.len().checked_sub(1);
        left.change(last.filter(|&last| !left.refused() && last >= 3 * left.count));
    }),
    ("the words after the last task's are zero", |left| {
        if !left.refused() {
            left.list.lend()[3 * left.count..].fill(0);
        }
    }),
    ("a refusal changes the first word", |left| left.change(left.refused().then_some(0))),
    ("a refusal changes the last word", |left| {
        left.change(left.given.len().checked_sub(1).filter(|_| left.refused()));
    }),
    ("a refusal empties the list", |left| {
        if left.refused() {
            left.list.lend().fill(0);
        }
    }),
    ("a sheet that breaks a rule changes the first word", |left| {
        left.change(left.tasks().is_empty().then_some(0));
    }),
    ("a list that is too short is filled as far as it goes", |left| {
        let tasks = left.tasks();
        if left.refused() && !tasks.is_empty() {
            let words = left.list.lend();
            let numbers = tasks.iter().flat_map(|task| [task.number.into(), 1, 0]);
            words.iter_mut().zip(numbers).for_each(|(word, number)| *word = number);
        }
    }),
    ("a list one word too short is taken", |left| {
        let count = left.tasks().len();
        if left.refused() && left.given.len() + 1 == 3 * count {
            left.count = count;
        }
    }),
    ("an empty list is taken", |left| {
        if left.given.is_empty() {
            left.count = left.tasks().len();
        }
    }),
    ("an exact list is refused", |left| {
        if left.given.len() == 3 * left.count {
            left.count = 0;
            left.list.lend().copy_from_slice(&left.given);
        }
    }),
    ("a list for more than 32 tasks is refused", |left| {
        if left.given.len() > 96 {
            left.count = 0;
            left.list.lend().copy_from_slice(&left.given);
        }
    }),
    ("the word before the list", |left| *left.list.posts()[0] ^= 1),
    ("the word after the list", |left| *left.list.posts()[1] ^= 1),
    ("tasks in the order of their numbers", |left| {
        if !left.refused() {
            let words = &mut left.list.lend()[..3 * left.count];
            words.as_chunks_mut::<3>().0.sort_unstable();
        }
    }),
    ("a level counts tasks", |left| {
        left.task_levels(|tasks, own| {
            tasks.iter().filter(|task| task.deadline >= own.deadline).count()
        });
    }),
    ("a level counts greater deadlines only", |left| {
        left.task_levels(|tasks, own| different(tasks, |other| other > own.deadline));
    }),
    ("a level counts smaller deadlines", |left| {
        left.task_levels(|tasks, own| different(tasks, |other| other <= own.deadline));
    }),
    ("a level counts deadlines with a sign", |left| {
        left.task_levels(|tasks, own| {
            different(tasks, |other| other as i32 >= own.deadline as i32)
        });
    }),
    ("a level counts the deadlines of tasks with cards", |left| {
        left.task_levels(|tasks, own| {
            let with_cards: Vec<Task> =
                tasks.iter().filter(|task| task.objects != 0).copied().collect();
            different(&with_cards, |other| other >= own.deadline)
        });
    }),
    ("a level counts the deadlines of its core", |left| {
        left.task_levels(|tasks, own| {
            let core: Vec<Task> =
                tasks.iter().filter(|task| task.core == own.core).copied().collect();
            different(&core, |other| other >= own.deadline)
        });
    }),
    ("a group by one common card only", |left| {
        left.transactions(|tasks, own, place| {
            let common = |other: &usize| tasks[place].objects & tasks[*other].objects != 0;
            (0..tasks.len()).filter(common).map(|other| own[other]).max().unwrap_or(0)
        });
    }),
    ("everyone with cards in one group", |left| {
        left.transactions(|tasks, own, place| {
            let uses = |other: &usize| tasks[*other].objects != 0;
            let highest = (0..tasks.len()).filter(uses).map(|other| own[other]).max();
            highest.filter(|_| uses(&place)).unwrap_or(0)
        });
    }),
    ("a transaction has its own task's level", |left| {
        left.transactions(
            |tasks, own, place| if tasks[place].objects == 0 { 0 } else { own[place] },
        );
    }),
    ("a task without cards has its own level", |left| {
        if !left.refused() {
            let tasks = left.tasks();
            let words = left.list.lend();
            for place in (0..tasks.len()).filter(|&place| tasks[place].objects == 0) {
                words[3 * place + 2] = words[3 * place + 1];
            }
        }
    }),
    ("levels exchanged", |left| {
        if !left.refused() {
            let words = &mut left.list.lend()[..3 * left.count];
            words.as_chunks_mut::<3>().0.iter_mut().for_each(|line| line.swap(1, 2));
        }
    }),
];

/// How many different deadlines are so.
fn different(tasks: &[Task], is_so: impl Fn(u32) -> bool) -> usize {
    let mut deadlines: Vec<u32> = tasks.iter().map(|task| task.deadline).collect();
    deadlines.sort_unstable();
    deadlines.dedup();
    deadlines.into_iter().filter(|&deadline| is_so(deadline)).count()
}
