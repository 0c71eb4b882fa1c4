#!/usr/bin/env bash
# wrong.sh [SEED [COUNT [OPTIONS..]]]: wrong copies of the reference, each compared with the reference on COUNT scripts from the seed
# SEED on; OPTIONS go to `compare`, in place of --frames --quick. A line for each copy: what is altered, lines of the first script that
# differs, lines that are left of it, choices of lines tried, seconds, whether surely no fewer lines differ. Fails unless all are sure.
# The copies keep of the standing rules only the range of cores and cards, so that a fault shows as what it is and not as refusal 2.
set -eu
cd "$(dirname "$0")/.."
seed=${1:-1}
count=${2:-20000}
shift $(($# < 2 ? $# : 2))
[ $# -gt 0 ] || set -- --frames --quick
options=("$@")
case " $* " in *" --frames "*) mode=(frames) ;; *) mode=() ;; esac
work=$(mktemp -d)
trap 'rm -rf "$work"' EXIT
. tests/copies.sh
cargo build --quiet --release --offline --manifest-path reference/Cargo.toml
unsure=0

# wrong NAME FILE EDIT [FILE EDIT]..: a copy in which sed has edited files of src/, compared
wrong() {
  altered "$@"
  sed -i '/^    ("/{/counts in range/!d}; s/\[Rule; 12\]/[Rule; 1]/' "$work/copy/src/sound.rs"
  built cards-reference
  found "$1" --seed "$seed" --count "$count" "${options[@]}" "$work/target/release/cards-reference" "${mode[@]}" || unsure=$((unsure + 1))
}

commit=calls/commit.rs
transaction=calls/transaction.rs
wrong "a set-back transaction gets a new ticket" $commit 's/other.aborts += 1;/& other.ticket = self.tickets; self.tickets += 1;/'
wrong "only write sets conflict" record.rs 's/self.write_set & other.data_set() != 0 || .*/self.write_set \& other.write_set != 0/'
wrong "only writers are struck" $commit 's/other.data_set() & write_set/other.write_set \& write_set/'
wrong "no tickets are compared" $commit 's/other.ticket < own.ticket/false/'
wrong "a marked transaction keeps its sets" $commit '/other.*_set = 0;/d' \
  $transaction 's/self.core\[core\].zombie = false;/& self.core[core].read_set = 0; self.core[core].write_set = 0;/'
wrong "a commit counts twice" $commit 's/other.aborts += 1/other.aborts += 2/'
wrong "every commit waits" $commit 's/= self.first_in_the_way(c)/= Some(0)/; s/!self.core\[c\].read_only()/true/'
wrong "waits for later ones too" $commit 's/other.ticket < own.ticket/other.ticket != own.ticket/'
wrong "waits for cores 0 and 1 only" $commit 's/(0..self.present().len()).filter/(0..self.present().len().min(2)).filter/'
wrong "waits names the least core in the way" $commit 's/min_by_key(|&other| self.core\[other\].ticket)/min()/'
wrong "waits names the greatest ticket in the way" $commit 's/min_by_key/max_by_key/'
wrong "waits names the smallest ticket in progress" $commit \
  's/core: first as u32/core: (0..16).filter(|\&o| self.core[o].in_progress).min_by_key(|\&o| self.core[o].ticket).unwrap_or(first) as u32/'
wrong "waits names a later one in conflict" $commit \
  's/core: first as u32/core: (c + 1..16).find(|\&o| self.core[o].ticket > self.core[c].ticket \&\& self.core[c].conflicts_with(\&self.core[o])).unwrap_or(first) as u32/'
wrong "the listing names no core" script/listing.rs 's/("waits", Some(core))/("waits", None)/'
wrong "a read-only one waits" $commit 's/!self.core\[c\].read_only()/true/'
wrong "one with an empty read set waits for nobody, no other" record.rs '/fn read_only/,/}/s/self.write_set == 0/self.read_set == 0/'
wrong "one that has touched nothing waits for nobody, no other" record.rs '/fn read_only/,/}/s/self.write_set == 0/self.data_set() == 0/'
wrong "a marked read-only one commits" $commit 's/if self.core\[c\].zombie/& \&\& !self.core[c].read_only()/'
wrong "a later writer passes an earlier read-only one" $commit 's/other.ticket < own.ticket/& \&\& !other.read_only()/'
wrong "a read-only commit strikes who read the same" $commit \
  's/self.strike(ending.write_set)/self.strike(if ending.read_only() { ending.read_set } else { ending.write_set })/'
wrong "two that have read one card conflict" record.rs 's/other.write_set & self.data_set()/other.data_set() \& self.data_set()/'
wrong "a writer's commit strikes who read the same" $commit \
  's/self.strike(ending.write_set)/self.strike(if ending.read_only() { 0 } else { ending.data_set() })/'
wrong "one that was set back is not read-only" record.rs '/fn read_only/,/}/s/self.write_set == 0/& \&\& self.aborts == 0/'
wrong "one that wrote before it was set back is not read-only" record.rs \
  's/    pub write_set: Set,/&\n    pub wrote: bool,/; /fn read_only/,/}/s/self.write_set == 0/& \&\& !self.wrote/' \
  $transaction 's/self.core\[c\].write_set |= only(d);/& self.core[c].wrote = true;/'
wrong "a write of the value that is there is none" $transaction 's/self.core\[c\].write_set |= only(d);/if committed[d] != value { & }/'
wrong "value 0 always" $transaction 's/let value = .*/let value = 0;/'
wrong "no card is moved" $commit '/committed\[object\] = /d'
wrong "one setback is invented" $commit 's/Committed(ending.aborts)/Committed(ending.aborts + 1)/'
wrong "a second setback is not counted" $commit 's/other.aborts += 1/other.aborts = 1/'
wrong "a read misses its own write" $transaction 's/let own = .*/let own = false;/'
wrong "a write is no touch" record.rs 's/self.read_set | self.write_set/self.read_set/'
wrong "a refused call takes the mark away" $transaction \
  '/self.admit_access/,/};/s/Err(number) => /&{ self.core[core as usize % 16].zombie = false; /; /self.admit_access/,/};/s/self),/self); }/'
wrong "refusal 9 before 5" $transaction '/let d = self.admit_object/{N;s/\(.*\)\n\(.*\)/\2\n\1/}'
wrong "a ninth job joins" record.rs 's/MAX_JOBS: usize = 8/MAX_JOBS: usize = 9/'
wrong "the last of equal deadlines runs" record.rs 's/(0..jobs.len()).min_by_key/(0..jobs.len()).rev().min_by_key/'
wrong "a job takes over from a transaction" record.rs 's/if self.in_progress/if false/'
wrong "setup keeps the committed values" calls/setup.rs '/committed.fill(0);/d'
wrong "a job number over 65,535 is let through" script/parse.rs 's/number(field)?.try_into().ok()/Some(number(field)? as u16)/'
wrong "a leading zero is let through" fields.rs 's/leading_zero || //'

[ "$unsure" -eq 0 ] || { echo "not sure: $unsure"; exit 1; }
