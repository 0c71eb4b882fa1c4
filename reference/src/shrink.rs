//! Cuts a failing script down: to the fewest lines first, then to few bytes.

use crate::choices::{count_below, count_lines, lines};
use crate::fewest::Search;
pub use crate::fewest::{Budget, Trials};

/// Scripts with at most so many lines also have every pair of lines tried.
const PAIRS_UP_TO: usize = 40;

/// With at most so many lines left, every choice of them is tried before a long
/// search for the fewest of all, so that it begins with few.
const CHOICES_UP_TO: usize = 15;

/// With more choices than this a search may be long.
const LONG_SEARCH: u64 = 200_000;

/// Scripts with at most so many bytes are also cut byte by byte.
const BYTES_UP_TO: usize = 2_000;

/// What is left of a failing script.
pub struct Shrunk {
    pub script: Vec<u8>,
    /// Every choice of fewer lines than this, out of all lines of the failing
    /// script, was tried, and none of them fails.
    pub tried_below: usize,
    /// How many choices of lines were tried.
    pub tried: u64,
}

impl Shrunk {
    /// A script of which no smaller choice was tried.
    pub fn untried(script: &[u8]) -> Shrunk {
        Shrunk { script: script.to_vec(), tried_below: 0, tried: 0 }
    }

    pub fn lines(&self) -> usize {
        count_lines(&self.script)
    }

    /// Whether surely no choice of fewer lines fails.
    pub fn is_fewest(&self) -> bool {
        self.lines() <= self.tried_below
    }
}

/// A script of the fewest lines that still fail: every choice of fewer lines,
/// out of all lines, was tried, unless the budget ends before. No byte can be
/// taken away if it is short. If the given script does not fail, it comes back
/// as it is.
pub fn shrink(script: &[u8], budget: Budget, trials: &mut dyn Trials) -> Shrunk {
    let mut search = Search::new(trials, budget);
    if !search.fails(script.to_vec()) {
        return Shrunk::untried(script);
    }
    if search.fails(Vec::new()) {
        return Shrunk::untried(&[]);
    }
    let (mut shortest, tried_below) = fewest_of_all(script, &mut search);
    loop {
        let before = shortest.len();
        if before <= BYTES_UP_TO {
            shortest = cut(&shortest, <[u8]>::to_vec, &mut search);
        }
        if shortest.len() == before {
            return Shrunk { script: shortest, tried_below, tried: search.tried };
        }
        shortest = fewer_lines(&shortest, &mut search);
        shortest = fewest_of_few(shortest, &mut search);
    }
}

/// The fewest lines found, and a number: every choice of fewer lines than that
/// was tried.
fn fewest_of_all(script: &[u8], search: &mut Search) -> (Vec<u8>, usize) {
    let mut kept = fewer_lines(script, search);
    if count_below(script, count_lines(&kept)) > LONG_SEARCH {
        kept = fewest_of_few(kept, search);
        let choices = count_below(script, count_lines(&kept));
        if choices > LONG_SEARCH {
            search.before_long_search(&kept, choices);
        }
    }
    match search.fewest(script, count_lines(&kept)) {
        Ok(fewest) => {
            let size = count_lines(&fewest);
            (fewest, size)
        }
        Err(tried_below) => (kept, tried_below),
    }
}

/// The fewest of the lines that fail, if the script has few.
fn fewest_of_few(script: Vec<u8>, search: &mut Search) -> Vec<u8> {
    let size = count_lines(&script);
    if size > CHOICES_UP_TO {
        return script;
    }
    search.fewest(&script, size).unwrap_or(script)
}

/// Lines of the script that still fail: no single one can go, and no pair if
/// they are few.
fn fewer_lines(script: &[u8], search: &mut Search) -> Vec<u8> {
    let mut kept = cut(&lines(script), script_of, search);
    while kept.len() <= PAIRS_UP_TO {
        match without_a_pair(&kept, search) {
            Some(fewer) => kept = cut(&fewer, script_of, search),
            None => break,
        }
    }
    script_of(&kept)
}

fn script_of(lines: &[&[u8]]) -> Vec<u8> {
    lines.concat()
}

/// Takes away stretches of parts while the rest still fails: long stretches
/// first, single parts last, until no single part can go.
fn cut<T: Copy>(parts: &[T], script_of: fn(&[T]) -> Vec<u8>, search: &mut Search) -> Vec<T> {
    let mut kept = parts.to_vec();
    let mut stretch = kept.len().div_ceil(2);
    while stretch > 0 {
        let fewer = without_stretches(&kept, stretch, script_of, search);
        if search.is_over() || (stretch == 1 && fewer.len() == kept.len()) {
            return fewer;
        }
        stretch = stretch.div_ceil(2).min(fewer.len());
        kept = fewer;
    }
    kept
}

/// Goes once through the parts from the end, so that what is left in front
/// keeps its place.
fn without_stretches<T: Copy>(
    parts: &[T],
    stretch: usize,
    script_of: fn(&[T]) -> Vec<u8>,
    search: &mut Search,
) -> Vec<T> {
    let mut kept = parts.to_vec();
    let mut end = kept.len();
    while end > 0 && !search.is_over() {
        let start = end.saturating_sub(stretch);
        let fewer = [&kept[..start], &kept[end..]].concat();
        if search.fails(script_of(&fewer)) {
            kept = fewer;
        }
        end = start;
    }
    kept
}

/// The lines without some two of them, if the rest still fails.
fn without_a_pair<'a>(lines: &[&'a [u8]], search: &mut Search) -> Option<Vec<&'a [u8]>> {
    for second in 1..lines.len() {
        for first in 0..second {
            let fewer = [&lines[..first], &lines[first + 1..second], &lines[second + 1..]].concat();
            if !search.is_over() && search.fails(script_of(&fewer)) {
                return Some(fewer);
            }
        }
    }
    None
}
