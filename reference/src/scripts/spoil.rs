//! Ways to spoil a line. Most of them make it malformed, a few do not; the
//! reference says which.

use crate::random::Random;

/// Numbers that a field cannot hold, or that only some fields can.
const NUMBERS: [&str; 9] = [
    "65536",
    "65535",
    "4294967295",
    "4294967296",
    "10000000000",
    "99999999999999999999999999999999",
    "18446744073709551616",
    "007",
    "00",
];

/// Lengths at the limit, past it and far past it.
const LENGTHS: [usize; 10] = [63, 64, 65, 66, 128, 300, 4_096, 65_536, 65_537, 200_000];

/// Spoils a share of the lines, in a hundred; the names line is kept. No line
/// is drawn out to more than the longest.
pub(super) fn some_lines(random: &mut Random, share: u32, longest: usize, lines: &mut [Vec<u8>]) {
    for line in lines.iter_mut().skip(1) {
        if random.percent(share) {
            *line = spoiled(random, longest, line);
        }
    }
}

/// Spoils a script without regard to its lines: a few bytes changed, put in or
/// taken away, or the end cut off.
pub(super) fn some_bytes(random: &mut Random, script: &mut Vec<u8>) {
    if random.percent(20) {
        script.truncate(random.place(script.len() + 1));
        return;
    }
    for _ in 0..1 + random.below(3) {
        let place = random.place(script.len() + 1);
        let byte = any_byte(random);
        match random.below(4) {
            0 if place < script.len() => drop(script.remove(place)),
            1 if place < script.len() => script[place] ^= 1 << random.below(8),
            2 if place < script.len() => script[place] = byte,
            _ => script.insert(place, byte),
        }
    }
}

/// Bytes that mean nothing, or next to nothing; below a names line or not.
pub(super) fn garbage(random: &mut Random, names: &[u8]) -> Vec<u8> {
    let mut script = if random.percent(60) { [names, b"\n"].concat() } else { Vec::new() };
    let near = random.percent(50);
    for _ in 0..random.below(2_000) {
        script.push(match near {
            true => *random.pick(b"setup 016- -\n\n "),
            false => any_byte(random),
        });
    }
    script
}

/// Any byte, often a newline.
fn any_byte(random: &mut Random) -> u8 {
    let byte = random.below(256) as u8;
    if random.percent(20) {
        b'\n'
    } else {
        byte
    }
}

/// A names line that is wrong in one way.
pub(super) fn bad_names(random: &mut Random, names: &[u8]) -> Vec<u8> {
    match random.below(4) {
        0 => spoiled(random, 300, names),
        1 => names.to_ascii_uppercase(),
        2 => [names, b" call"].concat(),
        _ => {
            let twice: [&[u8]; 4] = [b"call", b"core", b"card", b"call"];
            twice.join(&b' ')
        }
    }
}

/// The line, spoiled in one way.
fn spoiled(random: &mut Random, longest: usize, line: &[u8]) -> Vec<u8> {
    match random.below(8) {
        0 => with_byte(random, line),
        1 => spaced(random, line),
        2 | 3 => with_field(random, line),
        4 => sized(random, longest, line),
        5 => fields_changed(random, line),
        6 => line.to_ascii_uppercase(),
        _ => Vec::new(),
    }
}

/// One byte put in, taken away or changed.
fn with_byte(random: &mut Random, line: &[u8]) -> Vec<u8> {
    let mut line = line.to_vec();
    let place = random.place(line.len() + 1);
    let byte = match random.below(3) {
        0 => random.below(256) as u8,
        _ => *random.pick(b"\r\0\t -+0;\x0b\x0c\x80\xff"),
    };
    match random.below(4) {
        0 => line.insert(place, byte),
        1 if place < line.len() => drop(line.remove(place)),
        2 if place < line.len() => line[place] = byte,
        _ => line.push(byte),
    }
    line
}

/// A space too many, or a tab for a space.
pub(crate) fn spaced(random: &mut Random, line: &[u8]) -> Vec<u8> {
    let text = String::from_utf8_lossy(line);
    match random.below(5) {
        0 => format!(" {text}"),
        1 => format!("{text} "),
        2 => text.replacen(' ', "  ", 1),
        3 => text.replacen(' ', "\t", 1),
        _ => text.replace(' ', "  "),
    }
    .into_bytes()
}

/// One field set to a dash, a sign, a number at a limit or with a leading zero.
fn with_field(random: &mut Random, line: &[u8]) -> Vec<u8> {
    let text = String::from_utf8_lossy(line).into_owned();
    let mut fields: Vec<String> = text.split(' ').map(str::to_string).collect();
    let place = random.place(fields.len());
    let field = &mut fields[place];
    *field = match random.below(6) {
        0 => "-".to_string(),
        1 => format!("0{field}"),
        2 => format!("+{field}"),
        3 => format!("-{field}"),
        4 => format!("{field}{field}"),
        _ => random.pick(&NUMBERS).to_string(),
    };
    fields.join(" ").into_bytes()
}

/// The line drawn out to one of the lengths.
fn sized(random: &mut Random, longest: usize, line: &[u8]) -> Vec<u8> {
    let lengths = LENGTHS.partition_point(|&length| length <= longest);
    let length = *random.pick(&LENGTHS[..lengths]);
    let filler = *random.pick(b" 0-x\0\r");
    let mut line = line.to_vec();
    if random.percent(50) {
        line.resize(length, filler);
    } else {
        let missing = length.saturating_sub(line.len());
        line.splice(0..0, std::iter::repeat_n(filler, missing));
    }
    line
}

/// A field too many or too few, or two in each other's place.
fn fields_changed(random: &mut Random, line: &[u8]) -> Vec<u8> {
    let mut fields: Vec<&[u8]> = line.split(|&byte| byte == b' ').collect();
    let place = random.place(fields.len());
    match random.below(3) {
        0 => drop(fields.remove(place)),
        1 => fields.insert(place, b"0"),
        _ => fields.swap(0, place),
    }
    fields.join(&b' ')
}
