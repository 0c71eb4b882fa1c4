//! Lines of a sheet changed, the line of names among them.

use crate::random::Random;
use crate::scripts::spoil::spaced;
use crate::sheet::NAMES;

type Lines = Vec<Vec<u8>>;

/// Some line.
fn some_line<'a>(lines: &'a mut Lines, random: &mut Random) -> &'a mut Vec<u8> {
    let place = if random.percent(30) { 0 } else { random.place(lines.len()) };
    &mut lines[place]
}

/// The fields of some line changed.
fn with_fields(
    lines: &mut Lines,
    random: &mut Random,
    change: impl Fn(&mut Random, &mut Vec<Vec<u8>>),
) {
    let line = some_line(lines, random);
    let mut fields: Vec<Vec<u8>> = line.split(|&byte| byte == b' ').map(<[u8]>::to_vec).collect();
    change(random, &mut fields);
    *line = fields.join(&b' ');
}

pub fn field_dropped(random: &mut Random, lines: &mut Lines) {
    with_fields(lines, random, |random, fields| drop(fields.remove(random.place(fields.len()))));
}

pub fn field_added(random: &mut Random, lines: &mut Lines) {
    with_fields(lines, random, |random, fields| {
        let field = random.pick(&["0", "-", "1,2", "", "task", "cards"]).as_bytes().to_vec();
        fields.insert(random.place(fields.len() + 1), field);
    });
}

/// Two fields of a line exchanged, the names too: then all values have other
/// names.
pub fn fields_exchanged(random: &mut Random, lines: &mut Lines) {
    with_fields(lines, random, |random, fields| {
        let (first, second) = (random.place(fields.len()), random.place(fields.len()));
        fields.swap(first, second);
    });
}

/// A space too many, or a tab for one.
pub fn odd_spaces(random: &mut Random, lines: &mut Lines) {
    let line = some_line(lines, random);
    *line = spaced(random, line);
}

/// A carriage return before one newline, or before each.
pub fn carriage_return(random: &mut Random, lines: &mut Lines) {
    if random.percent(50) {
        lines.iter_mut().for_each(|line| line.push(b'\r'));
    } else {
        some_line(lines, random).push(b'\r');
    }
}

/// A byte that stands in no sheet.
pub fn odd_byte(random: &mut Random, lines: &mut Lines) {
    let line = some_line(lines, random);
    let place = random.place(line.len() + 1);
    line.insert(place, *random.pick(b"\0\r\t\x0b\x0c\x1a;+._/:\x80\xa0\xb2\xff"));
}

/// A line of nothing before another.
pub fn empty_line(random: &mut Random, lines: &mut Lines) {
    lines.insert(random.place(lines.len()), Vec::new());
}

/// A line drawn out to a length at the limit, past it or far past it.
pub fn long_line(random: &mut Random, lines: &mut Lines) {
    let length = *random.pick(&[1_022, 1_023, 1_024, 1_025, 1_026, 2_048, 4_096, 65_536]);
    let filler: &[u8] =
        random.pick::<&[u8]>(&[b" ", b"0", b"9", b"1,", b",", b"-", b"x", b"\0", b"\r"]);
    let line = some_line(lines, random);
    let missing = length - line.len();
    let filling: Vec<u8> = filler.iter().copied().cycle().take(missing).collect();
    let place = *random.pick(&[0, line.len(), line.len()]);
    line.splice(place..place, filling);
}

/// One of the names twice, missing or another word.
pub fn other_names(random: &mut Random, lines: &mut Lines) {
    let others =
        ["task", "core", "deadline", "cards", "card", "call", "value", "tasks", "Task", "-", "1"];
    let mut names: Vec<&str> = NAMES.to_vec();
    let (place, other) = (random.place(4), *random.pick(&others));
    names[place] = if other == names[place] { "job" } else { other };
    lines[0] = names.join(" ").into_bytes();
}

/// The names in capitals, or the first letters of them.
pub fn capitals(random: &mut Random, lines: &mut Lines) {
    let whole = random.percent(50);
    lines[0] = lines[0].to_ascii_uppercase();
    if !whole {
        lines[0][1..].make_ascii_lowercase();
    }
}

/// The names a second time, at any place.
pub fn names_again(random: &mut Random, lines: &mut Lines) {
    let names = lines[0].clone();
    lines.insert(random.place(lines.len() + 1), names);
}

pub fn line_left_out(random: &mut Random, lines: &mut Lines) {
    lines.remove(random.place(lines.len()));
}

pub fn lines_exchanged(random: &mut Random, lines: &mut Lines) {
    let (first, second) = (random.place(lines.len()), random.place(lines.len()));
    lines.swap(first, second);
}
