//! Bytes of a sheet changed, without regard to its lines.

use crate::random::Random;
use crate::sheet::MAX_BYTES;

/// Any byte, often one of a sheet.
fn some_byte(random: &mut Random) -> u8 {
    if random.percent(70) {
        *random.pick(b"0123456789,- \n")
    } else {
        random.below(256) as u8
    }
}

pub fn byte_changed(random: &mut Random, bytes: &mut [u8]) {
    let place = random.place(bytes.len());
    bytes[place] = some_byte(random);
}

pub fn bit_changed(random: &mut Random, bytes: &mut [u8]) {
    let place = random.place(bytes.len());
    bytes[place] ^= 1 << random.below(8);
}

pub fn byte_added(random: &mut Random, bytes: &mut Vec<u8>) {
    bytes.insert(random.place(bytes.len() + 1), some_byte(random));
}

pub fn byte_dropped(random: &mut Random, bytes: &mut Vec<u8>) {
    bytes.remove(random.place(bytes.len()));
}

pub fn cut_off(random: &mut Random, bytes: &mut Vec<u8>) {
    bytes.truncate(random.place(bytes.len() + 1));
}

/// The last newline taken off, or put on.
pub fn other_end(_: &mut Random, bytes: &mut Vec<u8>) {
    match bytes.last() {
        Some(b'\n') => drop(bytes.pop()),
        _ => bytes.push(b'\n'),
    }
}

/// A line of nothing at the end, or several.
pub fn empty_end(random: &mut Random, bytes: &mut Vec<u8>) {
    let newlines = 2 + random.place(3);
    bytes.extend(std::iter::repeat_n(b'\n', newlines));
}

/// Almost nothing.
pub fn few_bytes(random: &mut Random, bytes: &mut Vec<u8>) {
    let end = bytes.iter().position(|&byte| byte == b'\n').unwrap_or(bytes.len());
    let names = bytes[..end].to_vec();
    let ended = [&names[..], b"\n"].concat();
    let inputs: [&[u8]; 9] = [b"", b"\n", b"\n\n", b"\r\n", b"\0", b" ", b"-", &names, &ended];
    *bytes = random.pick(&inputs).to_vec();
}

/// Bytes of any kind, below the names or not.
pub fn any_bytes(random: &mut Random, bytes: &mut Vec<u8>) {
    let end = bytes.iter().position(|&byte| byte == b'\n').map_or(0, |newline| newline + 1);
    bytes.truncate(if random.percent(60) { end } else { 0 });
    let near = random.percent(50);
    for _ in 0..1 + random.below(2_000) {
        bytes.push(if near { *random.pick(b"0123456789,-  \n") } else { random.below(256) as u8 });
    }
}

/// About as many bytes as a sheet can have by its lines, or far more: in one
/// line or in many.
pub fn far_too_long(random: &mut Random, bytes: &mut Vec<u8>) {
    let most = *random.pick(&[MAX_BYTES - 1, MAX_BYTES, MAX_BYTES + 1, 2 * MAX_BYTES, 200_000]);
    let more = match random.below(4) {
        0 => b"\n".to_vec(),
        1 => vec![*random.pick(b"0 x\0,")],
        2 => b"7 7 7 7\n".to_vec(),
        _ => bytes.clone(),
    };
    let missing = most.saturating_sub(bytes.len());
    bytes.extend(more.iter().copied().cycle().take(missing));
}
