#!/usr/bin/env bash
# wrong_calls.sh [SEED [COUNT]]: wrong copies of the reference, with which the calls of Machine are compared on COUNT seeds from SEED on;
# most of the faults are such that no listing shows them. A line for each copy: what is altered, calls that agreed before the first
# difference, the call that differs. Fails unless each copy differs.
set -eu
cd "$(dirname "$0")/.."
tests/tool.sh rt cargo
seed=${1:-1}
count=${2:-200}
work=$(mktemp -d)
trap 'rm -rf "$work"' EXIT
. tests/copies.sh
mkdir -p build
(cd crates/calls_door && rt lib) > build/calls_door.log 2>&1 || { tail -20 build/calls_door.log; exit 1; }
alike=0

# wrong NAME FILE EDIT: a copy in which sed has edited a file of src/, compared
wrong() {
  local name=$1
  altered "$@"
  cp -r reference/calls "$work/copy"
  ARCHIVE=$PWD/crates/calls_door/out/libcalls_door.a RUSTFLAGS=-Awarnings cargo build --quiet --release --offline \
    --manifest-path "$work/copy/calls/Cargo.toml" --target-dir "$work/target"
  "$work/target/release/compare-calls" --seed "$seed" --count "$count" > "$work/report" || true
  sed -nE "s/^seed [0-9]+ differs after ([0-9]+) calls, ([^:]*): ([A-Za-z]+).*/| $name | \1 | \3, \2 |/p" "$work/report" > "$work/row"
  [ -s "$work/row" ] || { echo "| $name | - | no difference |" > "$work/row"; alike=$((alike + 1)); }
  cat "$work/row"
}

commit=calls/commit.rs
transaction=calls/transaction.rs
admit=calls/admit.rs
wrong "a version rises by two" $commit 's/self.versions\[object\] += 1/self.versions[object] += 2/'
wrong "a version stays where the value is equal" $commit \
  's/committed\[object\] = .*/if committed[object] == pending[self.pending_place(core, object)] { continue; } &/'
wrong "the commits are told for the version" $transaction 's/let version = .*/let version = self.commits;/'
wrong "a pending word stands elsewhere" record.rs 's/core \* self.objects as usize + object/object * self.cores as usize + core/'
wrong "a transaction waits for itself" $commit 's/other.ticket < own.ticket/other.ticket <= own.ticket/'
wrong "waits names the least core in the way" $commit 's/min_by_key(|&other| self.core\[other\].ticket)/min()/'
wrong "waits names the greatest ticket in the way" $commit 's/min_by_key/max_by_key/'
wrong "waits names the smallest ticket in progress" $commit \
  's/core: first as u32/core: (0..16).filter(|\&o| self.core[o].in_progress).min_by_key(|\&o| self.core[o].ticket).unwrap_or(first) as u32/'
wrong "waits names the smallest of tickets with a sign" $commit 's/|&other| self.core\[other\].ticket/& as i32/'
wrong "a read-only one waits" $commit 's/!self.core\[c\].read_only()/true/'
wrong "one with an empty read set waits for nobody, no other" record.rs '/fn read_only/,/}/s/self.write_set == 0/self.read_set == 0/'
wrong "one that has touched nothing waits for nobody, no other" record.rs '/fn read_only/,/}/s/self.write_set == 0/self.data_set() == 0/'
wrong "a marked read-only one commits" $commit 's/if self.core\[c\].zombie/& \&\& !self.core[c].read_only()/'
wrong "a later writer passes an earlier read-only one" $commit 's/other.ticket < own.ticket/& \&\& !other.read_only()/'
wrong "a read-only one that was set back waits" record.rs '/fn read_only/,/}/s/self.write_set == 0/& \&\& self.aborts == 0/'
wrong "a read-only commit raises the versions of what it read" $commit \
  's/self.commits += 1;/& if ending.read_only() { (0..64).filter(|\&d| ending.read_set \& only(d) != 0).for_each(|d| self.versions[d] += 1); }/'
wrong "a read-only commit strikes who read the same" $commit \
  's/self.strike(ending.write_set)/self.strike(if ending.read_only() { ending.read_set } else { ending.write_set })/'
wrong "a read-only commit is not counted" $commit 's/self.commits += 1;/self.commits += u32::from(!ending.read_only()); self.give_ups += u32::from(ending.read_only());/'
wrong "two that have read one card conflict" record.rs 's/other.write_set & self.data_set()/other.data_set() \& self.data_set()/'
wrong "a writer's commit strikes who read the same" $commit \
  's/self.strike(ending.write_set)/self.strike(if ending.read_only() { 0 } else { ending.data_set() })/'
wrong "longer committed values fit" $admit 's/committed.len() as u64 == /committed.len() as u64 >= /'
wrong "longer pending values fit" $admit 's/pending.len() as u64 == /pending.len() as u64 >= /'
wrong "the last ticket is not given" $admit 's/self.tickets == MAX_TICKETS/self.tickets >= MAX_TICKETS - 1/'
wrong "a refused setup is not blank" calls/setup.rs 's/TABLE_LENGTH), Record::blank()/TABLE_LENGTH), Record { cores, objects, ..Record::blank() }/'
wrong "setup keeps a pending word" calls/setup.rs 's/pending.fill(0);/pending[1..].fill(0);/'
wrong "a set back is told with its sets kept" $commit 's/other.read_set = 0;//'
for rule in "sets within objects" "transaction needs job" "idle core is clear" "zombie has empty sets" "list at most full" \
  "unused places zero" "owner has least deadline" "tickets differ" "tickets counted" "versions within commits" "aborts bounded"; do
  wrong "not a rule: $rule" sound.rs "/^    (\"$rule\", /d; s/\[Rule; 12\]/[Rule; 11]/"
done
wrong "as many setbacks as cores" sound.rs 's/as u64) < u64::from(record.cores)/as u64) <= u64::from(record.cores)/'
wrong "an equal deadline before the owner" sound.rs 's/job.deadline > own.deadline/job.deadline >= own.deadline/'
wrong "a version one beyond the commits" sound.rs 's/version <= record.commits/version <= record.commits.saturating_add(1)/'
wrong "tickets counted in 32 bits" sound.rs 's/== u64::from(record.commits).*/== (u64::from(record.commits) + u64::from(record.give_ups) + in_progress) % 4_294_967_296/'

[ "$alike" -eq 0 ] || { echo "no difference: $alike"; exit 1; }
