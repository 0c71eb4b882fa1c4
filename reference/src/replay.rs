//! Whether the answers of a run are those of the reference, call by call. This
//! is apart from the checker, which trusts no machine.

use crate::call::Call;
use crate::checker::{Detail, Run};
use crate::machine::Machine;
use crate::script::listed;

/// The first call of the run, counted from 0, whose answer is not the rule's. A
/// listing shows no versions; of its answers the rest is compared.
pub fn first_difference(run: &Run) -> Option<usize> {
    let mut machine = Machine::blank();
    machine.call(Call::Setup { cores: run.cores, objects: run.objects });
    run.steps.iter().position(|&(call, seen)| {
        let expected = machine.call(call);
        match run.detail {
            Detail::Whole => expected != seen,
            Detail::Listed => listed(expected) != listed(seen),
        }
    })
}
