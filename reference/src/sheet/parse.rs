//! Reading a sheet: which bytes are one, and its tasks.

use super::Task;
use crate::fields::{number, number_below, Places};
use crate::record::{MAX_CORES, MAX_OBJECTS};
use crate::set::{only, Set};

/// The names of the fields.
pub const NAMES: [&str; 4] = ["task", "core", "deadline", "cards"];
/// Most tasks of a sheet.
pub const MAX_TASKS: usize = 32;
/// Most bytes of a line without its newline.
pub const MAX_LINE: usize = 1_024;
/// Most bytes of a sheet: names and tasks, each line with its newline.
pub const MAX_BYTES: usize = (1 + MAX_TASKS) * (MAX_LINE + 1);

/// The tasks of a sheet, in its order, or none if it breaks a rule.
pub fn read(sheet: &[u8]) -> Option<Vec<Task>> {
    let mut lines = lines(sheet);
    let names = Places::of(NAMES.map(str::as_bytes), lines.next()?, MAX_LINE)?;
    let tasks: Option<Vec<Task>> =
        lines.take(MAX_TASKS + 1).map(|line| task(names, line)).collect();
    tasks.filter(|tasks| (1..=MAX_TASKS).contains(&tasks.len()) && all_differ(tasks))
}

/// The lines without their newlines. A newline at the end of the sheet ends its
/// line and starts no other.
fn lines(sheet: &[u8]) -> impl Iterator<Item = &[u8]> {
    sheet
        .split_inclusive(|&byte| byte == b'\n')
        .map(|line| line.strip_suffix(b"\n").unwrap_or(line))
}

/// Whether no two tasks have the same number.
fn all_differ(tasks: &[Task]) -> bool {
    let seen = |place: usize| tasks[..place].iter().any(|task| task.number == tasks[place].number);
    !(0..tasks.len()).any(seen)
}

/// The task of a line.
fn task(names: Places<4>, line: &[u8]) -> Option<Task> {
    let [task, core, deadline, cards] = names.fields(line, MAX_LINE)?;
    Some(Task {
        number: number(task)?.try_into().ok()?,
        core: number_below(MAX_CORES as u32, core)?,
        deadline: number(deadline)?,
        objects: objects(cards)?,
    })
}

/// A set of objects: `-` for the empty one, or its numbers, rising, a comma
/// between. An object beyond all of a set is, as a word, greater than the set.
fn objects(field: &[u8]) -> Option<Set> {
    if field == b"-" {
        return Some(0);
    }
    let mut set = 0;
    for item in field.split(|&byte| byte == b',') {
        let object = only(number_below(MAX_OBJECTS as u32, item)? as usize);
        if object <= set {
            return None;
        }
        set |= object;
    }
    Some(set)
}

#[cfg(test)]
mod tests {
    use super::*;

    fn of(text: &[u8]) -> Vec<&[u8]> {
        lines(text).collect()
    }

    #[test]
    fn a_newline_ends_a_line() {
        assert_eq!(of(b""), [b""; 0]);
        assert_eq!(of(b"a"), [b"a"]);
        assert_eq!(of(b"a\n"), [b"a"]);
        assert_eq!(of(b"\n"), [b""]);
        assert_eq!(of(b"a\n\n"), [&b"a"[..], b""]);
        assert_eq!(of(b"a\nb"), [b"a", b"b"]);
        assert_eq!(of(b"a\r\nb"), [&b"a\r"[..], b"b"]);
    }

    #[test]
    fn objects_rise() {
        assert_eq!(objects(b"-"), Some(0));
        assert_eq!(objects(b"0"), Some(1));
        assert_eq!(objects(b"63"), Some(1 << 63));
        assert_eq!(objects(b"0,1,63"), Some(1 << 63 | 3));
        let all: Vec<String> = (0..64).map(|object| object.to_string()).collect();
        assert_eq!(objects(all.join(",").as_bytes()), Some(u64::MAX));
        let bad = "64 3,1 1,1 1, ,1 1,,2 , -,1 1,- -- 01 1,02 1,+2 0x1 1.2 1;2 4294967297";
        for field in bad.split(' ').chain(["", " ", "1 2", "1, 2"]) {
            assert_eq!(objects(field.as_bytes()), None, "{field}");
        }
    }
}
