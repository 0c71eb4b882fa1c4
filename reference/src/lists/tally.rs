//! What a comparison of lists met, and what it never met.

use crate::sheet::{task_levels, transaction_levels, Task, MAX_TASKS};
use crate::sheets::{Fate, SHAPES, WAYS};
use std::collections::BTreeMap;

/// Lists by their length, beside the sheet's.
const LISTS: [&str; 7] = [
    "empty",
    "shorter",
    "a word too short",
    "exact",
    "a word longer",
    "longer",
    "for what is no sheet",
];

/// Sheets that show a wrong level or a wrong group.
const EQUAL: &str = "equal deadlines that count once";
const CHAIN: &str = "a level that comes through a chain";
const APART: &str = "a group below the highest level";
const ABOVE: &str = "a transaction above its own task";
const WITHOUT: &str = "a task without cards among others";
const FULL: &str = "32 tasks";
const HIGHEST: &str = "level 32";
const SIGHTS: [&str; 7] = [EQUAL, CHAIN, APART, ABOVE, WITHOUT, FULL, HIGHEST];

/// The counts.
#[derive(Default)]
pub struct Tally {
    pub lists: u64,
    /// Accepted and refused sheets, by how they came about.
    sheets: BTreeMap<&'static str, [u64; 2]>,
    near: [u64; 2],
    lengths: BTreeMap<&'static str, u64>,
    sights: BTreeMap<&'static str, u64>,
}

impl Tally {
    /// Counts a list of so many words on which both agreed, for a sheet of so
    /// many tasks, 0 if it is none.
    pub(super) fn count_list(&mut self, count: usize, length: usize) {
        self.lists += 1;
        let kind = match length as isize - 3 * count as isize {
            _ if count == 0 => 6,
            _ if length == 0 => 0,
            ..=-2 => 1,
            -1 => 2,
            0 => 3,
            1 => 4,
            2.. => 5,
        };
        *self.lengths.entry(LISTS[kind]).or_default() += 1;
    }

    /// Counts a sheet of a seed, by its tasks if it is one.
    pub(super) fn count_sheet(&mut self, how: &'static str, tasks: Option<&[Task]>) {
        self.sheets.entry(how).or_default()[usize::from(tasks.is_none())] += 1;
        if let Some(tasks) = tasks {
            self.see(tasks);
        }
    }

    /// Counts a sheet one byte away.
    pub(super) fn count_near(&mut self, accepted: bool) {
        self.near[usize::from(!accepted)] += 1;
    }

    fn see(&mut self, tasks: &[Task]) {
        let own = task_levels(tasks);
        let group = transaction_levels(tasks, &own);
        let uses = |place: &usize| tasks[*place].objects != 0;
        let at_least = |place: usize| {
            tasks.iter().filter(|task| task.deadline >= tasks[place].deadline).count()
        };
        let neighbours = |place: usize| {
            let common = |other: &usize| tasks[place].objects & tasks[*other].objects != 0;
            (0..tasks.len()).filter(common).map(|other| own[other]).max().unwrap_or(0)
        };
        let highest = (0..tasks.len()).filter(uses).map(|place| own[place]).max();
        let some = |seen: &dyn Fn(usize) -> bool| (0..tasks.len()).any(seen);
        let seen = [
            some(&|place| own[place] as usize != at_least(place)),
            some(&|place| group[place] != neighbours(place)),
            some(&|place| uses(&place) && Some(group[place]) != highest),
            some(&|place| group[place] > own[place]),
            highest.is_some() && some(&|place| !uses(&place)),
            tasks.len() == MAX_TASKS,
            own.contains(&(MAX_TASKS as u32)),
        ];
        for (sight, _) in SIGHTS.into_iter().zip(seen).filter(|(_, seen)| *seen) {
            *self.sights.entry(sight).or_default() += 1;
        }
    }

    /// What was never met.
    pub fn never_met(&self) -> Vec<String> {
        let mut never = Vec::new();
        let shapes = SHAPES.iter().map(|(name, _)| (*name, Fate::Accepted));
        let ways = WAYS.iter().map(|(name, fate, _)| (*name, *fate));
        for (how, fate) in shapes.chain(ways) {
            let [accepted, refused] = self.sheets.get(how).copied().unwrap_or_default();
            if fate != Fate::Refused && accepted == 0 {
                never.push(format!("{how}, accepted"));
            }
            if fate != Fate::Accepted && refused == 0 {
                never.push(format!("{how}, refused"));
            }
        }
        let unmet = LISTS.iter().filter(|&list| !self.lengths.contains_key(list));
        never.extend(unmet.map(|list| format!("a list, {list}")));
        let unseen = SIGHTS.iter().filter(|&sight| !self.sights.contains_key(sight));
        never.extend(unseen.map(|sight| sight.to_string()));
        never
    }

    /// The counts in lines.
    pub fn lines(&self) -> Vec<String> {
        let list = |counts: &BTreeMap<&str, u64>| {
            let words: Vec<String> =
                counts.iter().map(|(name, count)| format!("{name} {count}")).collect();
            words.join(", ")
        };
        let sum = |fate: usize| self.sheets.values().map(|fates| fates[fate]).sum::<u64>();
        let [accepted, refused] = self.near;
        vec![
            format!("sheets by seed: {} accepted, {} refused", sum(0), sum(1)),
            format!("one byte away: {accepted} accepted, {refused} refused"),
            format!("lists {}: {}", self.lists, list(&self.lengths)),
            format!("sheets with {}", list(&self.sights)),
        ]
    }
}
