//! Ways to damage a sheet. Some of them break a rule whatever they meet, some
//! may leave a sheet; the reference says which.

use super::draft::{joined, Draft};
use super::{bytes, fields, lines, Made};
use crate::random::Random;

/// What becomes of the sheets of a way.
#[derive(Clone, Copy, Debug, PartialEq, Eq)]
pub enum Fate {
    Accepted,
    Refused,
    /// Some are accepted and some are not.
    Either,
}

/// What a way changes.
#[derive(Clone, Copy)]
pub enum Change {
    Fields(fn(&mut Random, &mut Draft)),
    Lines(fn(&mut Random, &mut Vec<Vec<u8>>)),
    Bytes(fn(&mut Random, &mut Vec<u8>)),
}

/// A way to damage, by its name.
pub type Way = (&'static str, Fate, Change);

use Change::{Bytes, Fields, Lines};
use Fate::{Accepted, Either, Refused};

/// Every way.
pub const WAYS: &[Way] = &[
    ("two tasks of one number", Refused, Fields(fields::equal_numbers)),
    ("a task twice", Refused, Fields(fields::same_task)),
    ("a number at a limit", Either, Fields(fields::at_limit)),
    ("a number that wraps", Refused, Fields(fields::wrapped)),
    ("a leading zero", Refused, Fields(fields::leading_zero)),
    ("no number", Refused, Fields(fields::not_a_number)),
    ("too many digits", Refused, Fields(fields::too_many_digits)),
    ("a dash or nothing", Refused, Fields(fields::dash_or_nothing)),
    ("another digit", Either, Fields(fields::other_digit)),
    ("values exchanged", Either, Fields(fields::values_exchanged)),
    ("falling cards", Refused, Fields(fields::falling_cards)),
    ("equal cards", Refused, Fields(fields::equal_cards)),
    ("other cards", Either, Fields(fields::other_cards)),
    ("a comma too many", Refused, Fields(fields::extra_comma)),
    ("a dash in the cards", Refused, Fields(fields::dash_in_cards)),
    ("no comma in the cards", Refused, Fields(fields::other_comma)),
    ("about 32 tasks", Either, Fields(fields::about_full)),
    ("any fields", Either, Fields(fields::any_fields)),
    ("a field dropped", Refused, Lines(lines::field_dropped)),
    ("a field added", Refused, Lines(lines::field_added)),
    ("fields exchanged", Either, Lines(lines::fields_exchanged)),
    ("odd spaces", Refused, Lines(lines::odd_spaces)),
    ("a carriage return", Refused, Lines(lines::carriage_return)),
    ("an odd byte", Refused, Lines(lines::odd_byte)),
    ("an empty line", Refused, Lines(lines::empty_line)),
    ("a long line", Refused, Lines(lines::long_line)),
    ("other names", Refused, Lines(lines::other_names)),
    ("names in capitals", Refused, Lines(lines::capitals)),
    ("names again", Refused, Lines(lines::names_again)),
    ("a line left out", Either, Lines(lines::line_left_out)),
    ("lines exchanged", Either, Lines(lines::lines_exchanged)),
    ("a byte changed", Either, Bytes(|random, sheet| bytes::byte_changed(random, sheet))),
    ("a bit changed", Either, Bytes(|random, sheet| bytes::bit_changed(random, sheet))),
    ("a byte added", Either, Bytes(bytes::byte_added)),
    ("a byte dropped", Either, Bytes(bytes::byte_dropped)),
    ("cut off", Either, Bytes(bytes::cut_off)),
    ("another end", Accepted, Bytes(bytes::other_end)),
    ("an empty line at the end", Refused, Bytes(bytes::empty_end)),
    ("few bytes", Refused, Bytes(bytes::few_bytes)),
    ("any bytes", Refused, Bytes(bytes::any_bytes)),
    ("far too long", Refused, Bytes(bytes::far_too_long)),
];

/// Any way, more often one that may leave a sheet.
fn some_way(random: &mut Random) -> Way {
    match *random.pick(WAYS) {
        (_, Refused, _) => *random.pick(WAYS),
        way => way,
    }
}

/// The sheet damaged in one way.
pub fn damaged(mut draft: Draft, random: &mut Random) -> Made {
    let (how, fate, change) = some_way(random);
    let bytes = match change {
        Fields(change) => {
            change(random, &mut draft);
            draft.bytes()
        }
        Lines(change) => {
            let mut lines = draft.lines();
            change(random, &mut lines);
            joined(&lines, draft.ended)
        }
        Bytes(change) => {
            let mut bytes = draft.bytes();
            change(random, &mut bytes);
            bytes
        }
    };
    Made { how, fate, bytes }
}
