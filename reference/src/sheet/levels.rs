//! Preemption levels (source 002, definitions 33 to 35).

use super::groups::groups;
use super::Task;

/// Each task's level: the count of different deadlines at least its own.
pub fn task_levels(tasks: &[Task]) -> Vec<u32> {
    let mut deadlines: Vec<u32> = tasks.iter().map(|task| task.deadline).collect();
    deadlines.sort_unstable();
    deadlines.dedup();
    let at_least = |own: u32| deadlines.iter().filter(|&&other| other >= own).count() as u32;
    tasks.iter().map(|task| at_least(task.deadline)).collect()
}

/// The level of each task's transaction, from the tasks' own levels: the ceiling
/// of its group, that is the highest of them in it; 0 for a task without
/// objects.
pub fn transaction_levels(tasks: &[Task], own: &[u32]) -> Vec<u32> {
    let mut levels = vec![0; tasks.len()];
    for group in groups(tasks) {
        let ceiling = group.places().map(|place| own[place]).max();
        let users = group.places().filter(|&place| tasks[place].objects != 0);
        users.for_each(|place| levels[place] = ceiling.unwrap_or(0));
    }
    levels
}
