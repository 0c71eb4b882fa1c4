//! The different choices of lines of a script: one after another, and how many
//! there are.

use std::collections::HashMap;
use std::ops::RangeInclusive;

/// More work than this is not spent on a count.
const COUNTING: usize = 1_000_000_000;

/// The lines of a script, each with its newline.
pub fn lines(script: &[u8]) -> Vec<&[u8]> {
    script.split_inclusive(|&byte| byte == b'\n').collect()
}

/// How many lines a script has.
pub fn count_lines(script: &[u8]) -> usize {
    script.split_inclusive(|&byte| byte == b'\n').count()
}

/// The lines of a script; for each the place after the last equal line before
/// it, 0 if there is none.
pub struct Lines<'a> {
    lines: Vec<&'a [u8]>,
    after_equal: Vec<usize>,
}

impl<'a> Lines<'a> {
    pub fn of(script: &'a [u8]) -> Lines<'a> {
        let lines = lines(script);
        let mut ends = HashMap::new();
        let after_equal =
            (1..).zip(&lines).map(|(end, &line)| ends.insert(line, end).unwrap_or(0)).collect();
        Lines { lines, after_equal }
    }

    /// The first of the places with a line that does not stand between `start`
    /// and it.
    fn first_new(&self, start: usize, mut places: RangeInclusive<usize>) -> Option<usize> {
        places.find(|&place| self.after_equal[place] <= start)
    }
}

/// The scripts made by choosing so many lines and keeping their order. Each
/// line of a choice is taken where it first stands after the one before it, so
/// each script comes once. Only one choice is held.
pub struct Choices<'a> {
    lines: &'a Lines<'a>,
    size: usize,
    /// The places of the chosen lines; none before the first choice.
    chosen: Option<Vec<usize>>,
}

impl<'a> Choices<'a> {
    pub fn of(lines: &'a Lines<'a>, size: usize) -> Choices<'a> {
        Choices { lines, size, chosen: None }
    }

    /// Moves the last line that can move to its next place, and those after it
    /// close behind.
    fn advance(&mut self) -> Option<&[usize]> {
        let Choices { lines, size, chosen } = self;
        let Some(places) = chosen else {
            return (*size <= lines.lines.len()).then(|| &chosen.insert((0..*size).collect())[..]);
        };
        for turn in (0..*size).rev() {
            let start = if turn == 0 { 0 } else { places[turn - 1] + 1 };
            let last = lines.lines.len() - (*size - turn);
            if let Some(next) = lines.first_new(start, places[turn] + 1..=last) {
                (turn..).zip(next..).take(*size - turn).for_each(|(t, place)| places[t] = place);
                return Some(places);
            }
        }
        None
    }
}

impl Iterator for Choices<'_> {
    type Item = Vec<u8>;

    fn next(&mut self) -> Option<Vec<u8>> {
        let lines = self.lines;
        let places = self.advance()?;
        let mut script = Vec::new();
        places.iter().for_each(|&place| script.extend_from_slice(lines.lines[place]));
        Some(script)
    }
}

/// The numbers of different choices of 0, 1, 2, .. lines. A number that is too
/// great is u64::MAX, and so are those after it.
pub struct Counts<'a> {
    lines: &'a Lines<'a>,
    /// For each place the choices of the lines before it.
    before: Vec<u64>,
}

impl<'a> Counts<'a> {
    pub fn of(lines: &'a Lines<'a>) -> Counts<'a> {
        Counts { lines, before: vec![1; lines.lines.len() + 1] }
    }

    /// The choices of one line more: of those that end in some line, the ones
    /// that could end in an equal line before it are not counted again.
    fn longer(&self) -> Option<Vec<u64>> {
        let mut longer = vec![0_u64];
        for (place, &end) in self.lines.after_equal.iter().enumerate() {
            let known = if end == 0 { 0 } else { self.before[end - 1] };
            longer.push(longer[place].checked_add(self.before[place] - known)?);
        }
        Some(longer)
    }
}

impl Iterator for Counts<'_> {
    type Item = u64;

    fn next(&mut self) -> Option<u64> {
        let Some(&count) = self.before.last() else {
            return Some(u64::MAX);
        };
        self.before = self.longer().unwrap_or_default();
        Some(count)
    }
}

/// How many choices of fewer lines than `below` there are, u64::MAX if they are
/// too many to count.
pub fn count_below(script: &[u8], below: usize) -> u64 {
    let lines = Lines::of(script);
    if lines.lines.len().saturating_mul(below) > COUNTING {
        return u64::MAX;
    }
    Counts::of(&lines).take(below).fold(0, u64::saturating_add)
}
