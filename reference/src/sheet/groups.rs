//! Contention groups (source 002, definition 24): two tasks that use a common
//! object are in one group, and so on through chains; no others are.

use super::Task;
use crate::set::Set;

/// A set of tasks of one sheet: the task at place p is in it if bit p is 1.
#[derive(Clone, Copy, Debug, PartialEq, Eq)]
pub struct Group(u32);

impl Group {
    /// The group of the task at this place: at first the task alone, then grown
    /// until no task outside uses an object of one inside.
    pub fn of(tasks: &[Task], place: usize) -> Group {
        let mut group = Group(1 << place);
        loop {
            let grown = group.grown(tasks);
            if grown == group {
                return group;
            }
            group = grown;
        }
    }

    /// With every task that uses an object of one inside.
    fn grown(self, tasks: &[Task]) -> Group {
        let used = self.objects(tasks);
        let users = (0..tasks.len()).filter(|&place| tasks[place].objects & used != 0);
        Group(users.fold(self.0, |group, place| group | 1 << place))
    }

    /// The objects that some task inside uses.
    fn objects(self, tasks: &[Task]) -> Set {
        self.places().fold(0, |used, place| used | tasks[place].objects)
    }

    pub fn has(self, place: usize) -> bool {
        self.0 & 1 << place != 0
    }

    /// The places of its tasks.
    pub fn places(self) -> impl Iterator<Item = usize> {
        (0..32).filter(move |&place| self.has(place))
    }
}

/// The groups of a sheet's tasks, by the first task of each.
pub fn groups(tasks: &[Task]) -> Vec<Group> {
    let mut groups: Vec<Group> = Vec::new();
    for place in 0..tasks.len() {
        if !groups.iter().any(|group| group.has(place)) {
            groups.push(Group::of(tasks, place));
        }
    }
    groups
}
