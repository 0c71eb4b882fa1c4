#!/usr/bin/env bash
# wrong_sheets.sh [SEED [COUNT]]: wrong copies of the reference, each compared with the reference on COUNT sheets from the seed SEED on.
# A line for each copy: what is altered, lines of the first sheet that differs, lines that are left of it, choices of lines tried,
# seconds, whether surely no fewer lines differ; of 32 lines and more not all choices can be tried. Fails unless each copy differs. What a
# wrong C function leaves in the lent list is tried by `compare-sheets --faults` (tests/sheets.sh).
set -eu
cd "$(dirname "$0")/.."
seed=${1:-1}
count=${2:-20000}
work=$(mktemp -d)
trap 'rm -rf "$work"' EXIT
. tests/copies.sh
cargo build --quiet --release --offline --manifest-path reference/Cargo.toml
alike=0

# wrong NAME FILE EDIT [FILE EDIT]..: a copy in which sed has edited files of src/, compared
wrong() {
  altered "$@"
  CARGO_PROFILE_RELEASE_OPT_LEVEL=0 built levels-reference
  found "$1" --sheets --frames --trials 100000 --seed "$seed" --count "$count" "$work/target/release/levels-reference" frames ||
    [ $? -eq 1 ] || alike=$((alike + 1))
}

sheet=sheet/mod.rs
parse=sheet/parse.rs
groups=sheet/groups.rs
levels=sheet/levels.rs
wrong "a level counts tasks" $levels '/deadlines.dedup();/d'
wrong "a level counts greater deadlines only" $levels 's/other >= own/other > own/'
wrong "a level counts smaller deadlines" $levels 's/other >= own/other <= own/'
wrong "a level counts deadlines with a sign" $levels 's/other >= own/other as i32 >= own as i32/'
wrong "a level counts the deadlines of tasks with cards" $levels \
  's/tasks.iter().map(|task| task.deadline)/tasks.iter().filter(|task| task.objects != 0).map(|task| task.deadline)/'
wrong "a group by one common card only" $groups 's/let mut group = Group(1 << place);/& return group.grown(tasks);/'
wrong "a group by two common cards in a chain only" $groups 's/let mut group = Group(1 << place);/& return group.grown(tasks).grown(tasks);/'
wrong "a group of the tasks that come after" $groups 's/(0..tasks.len()).filter/(self.0.trailing_zeros() as usize..tasks.len()).filter/' \
  $groups 's/let grown = group.grown(tasks);/& if true { return grown; }/'
wrong "everyone with cards in one group" $groups 's/tasks\[place\].objects & used != 0/tasks[place].objects != 0/'
wrong "everyone in one group" $groups 's/tasks\[place\].objects & used != 0/true/'
wrong "a transaction has its own task's level" $levels 's/levels\[place\] = ceiling.unwrap_or(0)/levels[place] = own[place]/'
wrong "a transaction has the lowest level of its group" $levels 's/own\[place\]).max()/own[place]).min()/'
wrong "a task without cards has its own level" $levels 's/tasks\[place\].objects != 0/true/'
wrong "rising is not asked" $parse 's/object <= set/set \& object != 0/'
wrong "equal cards are taken" $parse 's/object <= set/object <= set \&\& set \& object == 0/'
wrong "an empty item of the cards is taken" $parse "s/byte == b',')/& .filter(|item| !item.is_empty())/"
wrong "a dash among the cards is taken" $parse "s/byte == b',')/& .filter(|item| *item != b\"-\")/"
wrong "card 64 is taken" $parse 's/MAX_OBJECTS as u32, item)?/MAX_OBJECTS as u32 + 1, item)?.min(63)/'
wrong "card 63 is refused" $parse 's/MAX_OBJECTS as u32, item/MAX_OBJECTS as u32 - 1, item/'
wrong "core 16 is taken" $parse 's/MAX_CORES as u32/MAX_CORES as u32 + 1/'
wrong "core 15 is refused" $parse 's/MAX_CORES as u32/MAX_CORES as u32 - 1/'
wrong "a task over 65,535 is taken" $parse 's/number(task)?.try_into().ok()?/number(task)? as u16/'
wrong "task 65,535 is refused" $parse 's/number(task)?/number_below(65_535, task)?/'
wrong "deadline 4,294,967,295 is refused" $parse 's/number(deadline)?/number_below(u32::MAX, deadline)?/'
wrong "a number over 4,294,967,295 is taken" fields.rs 's/\.parse()\.ok()/.parse::<u64>().ok().map(|number| number as u32)/'
wrong "a leading zero is taken" fields.rs 's/leading_zero || //'
wrong "equal task numbers are taken" $parse 's/ && all_differ(tasks)//'
wrong "equal task numbers are taken but for neighbours" $parse 's/tasks\[..place\]/tasks[place.saturating_sub(1)..place]/'
wrong "33 tasks are taken" $parse 's/MAX_TASKS: usize = 32/MAX_TASKS: usize = 33/' $groups 's/u32/u64/; s/0\.\.32/0..33/'
wrong "32 tasks are refused" $parse 's/MAX_TASKS: usize = 32/MAX_TASKS: usize = 31/'
wrong "lines after the thirty-second are not looked at" $parse 's/take(MAX_TASKS + 1)/take(MAX_TASKS)/'
wrong "no task is taken" $parse 's/(1\.\.=MAX_TASKS)/(0..=MAX_TASKS)/'
wrong "a line has at most 64 bytes" $parse 's/MAX_LINE: usize = 1_024/MAX_LINE: usize = 64/'
wrong "a line has at most 200 bytes" $parse 's/MAX_LINE: usize = 1_024/MAX_LINE: usize = 200/'
wrong "no more than 4,096 bytes are read" $parse 's/let mut lines = lines(sheet);/let mut lines = lines(\&sheet[..sheet.len().min(4096)]);/'
wrong "the last newline is asked for" $parse 's/let mut lines/if !sheet.ends_with(b"\\n") { return None; } &/'
wrong "the last newline must be missing" $parse 's/let mut lines/if sheet.ends_with(b"\\n") { return None; } &/'
wrong "an empty last line is taken" $parse 's/lines(sheet);/lines(sheet.strip_suffix(b"\\n\\n").unwrap_or(sheet));/'
wrong "empty lines are passed over" $parse 's/unwrap_or(line))/& .filter(|line| !line.is_empty())/'
wrong "a carriage return is taken" $parse 's/line.strip_suffix(b"\\n")/line.strip_suffix(b"\\r\\n").or(&)/'
wrong "a 0 byte ends the sheet" $parse 's/lines(sheet);/lines(sheet.split(|byte| *byte == 0).next()?);/'
wrong "names in one order only" $parse 's/let names/if !sheet.starts_with(b"task core deadline cards\\n") { return None; } &/'
wrong "names in any order, values in one" fields.rs 's/self.0.map(|place| fields\[place\])/fields/'
wrong "a missing name is taken" fields.rs 's/position(|field| \*field == name)?/position(|field| *field == name).unwrap_or(0)/'
wrong "names in capitals are taken" fields.rs 's/\*field == name/field.eq_ignore_ascii_case(name)/'
wrong "two spaces are taken" fields.rs "s/split(|&byte| byte == b' ')/& .filter(|part| !part.is_empty())/"
wrong "a tab is taken for a space" fields.rs "s/byte == b' '/byte == b' ' || byte == b'\\\\t'/"
wrong "a fifth field is taken" fields.rs 's/parts.next().is_none().then_some(fields)/Some(fields)/'
wrong "levels in the order of the numbers" $sheet 's/let tasks = read(sheet)?;/let mut tasks = read(sheet)?; tasks.sort_by_key(|task| task.number);/'
wrong "a refusal is told by another number" refusal.rs 's/BAD_SHEET: u32 = 13/BAD_SHEET: u32 = 11/'
wrong "a refusal is told as in a listing" $sheet 's/"refused {}/"1 refused {}/'

[ "$alike" -eq 0 ] || { echo "no difference: $alike"; exit 1; }
