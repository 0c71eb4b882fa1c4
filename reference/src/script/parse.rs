//! A line of names, then lines of calls in that order.

use super::lines::MAX_LINE;
use crate::call::Call;
use crate::fields::{number, Places};

const NAMES: [&[u8]; 4] = [b"call", b"core", b"card", b"value"];

/// The order of the fields call, core, card and value.
pub type Names = Places<4>;

/// The order that a names line gives.
pub fn parse_names(line: &[u8]) -> Option<Names> {
    Places::of(NAMES, line, MAX_LINE)
}

/// The call that a line of values makes, or none if the line is malformed. An
/// unused field is `-`.
pub fn parse_call(names: Names, line: &[u8]) -> Option<Call> {
    let [call, core, card, value] = names.fields(line, MAX_LINE)?;
    let core = number(core)?;
    Some(match (call, card, value) {
        (b"setup", card, b"-") => Call::Setup { cores: core, objects: number(card)? },
        (b"release", card, value) => {
            Call::Release { core, job: job_number(card)?, deadline: number(value)? }
        }
        (b"begin", b"-", b"-") => Call::Begin { core },
        (b"read", card, b"-") => Call::Read { core, object: number(card)? },
        (b"write", card, value) => {
            Call::Write { core, object: number(card)?, value: number(value)? }
        }
        (b"commit", b"-", b"-") => Call::Commit { core },
        (b"giveup", b"-", b"-") => Call::GiveUp { core },
        (b"finish", b"-", b"-") => Call::Finish { core },
        _ => return None,
    })
}

/// A job number: at most 65,535.
fn job_number(field: &[u8]) -> Option<u16> {
    number(field)?.try_into().ok()
}
