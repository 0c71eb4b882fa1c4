#!/usr/bin/env bash
# What `levels` prints and what the C functions on sheets leave, held to the reference. Ends in 'N passed, M failed'.
set -u
cd "$(dirname "$0")/.."
bin=reference/target/release
cargo build --quiet --release --offline --manifest-path reference/Cargo.toml || { echo "0 passed, 1 failed"; exit 1; }
levels=build/levels
host=build/cards_host
lists=reference/target/sheets/release/compare-sheets
. tests/count.sh

# compares OPTIONS.. PROGRAM..: sheets by seed; a difference ends the gate in some minutes
compares() {
  "$bin/compare" --sheets --search 600 "$@"
}

# the comparison finds nothing between the reference and itself,
compares_alike() {
  compares --frames --seed 1 --count 20000 "$bin/levels-reference" frames
}

# and finds the fault of a program that gives a task without cards a level, which two lines show and one does not
finds_a_fault() {
  ! compares --seed 1 --count 300 sh -c "$bin/levels-reference | sed 's/ 0\$/ 1/'" > "$work/fault" 2>&1 \
    && grep -qx 'fewest: every smaller choice was tried' "$work/fault" \
    && [ "$(sed '/^shortest sheet/,/^fewest/!d' "$work/fault" | grep -c '^  ')" -eq 2 ]
}

# shipped SHEET: table 6.1 of source 002, tasks 1 to 6 on cores 0 to 5
shipped() {
  printf '%s\n' 'task core deadline cards' '1 0 50 3' '2 1 100 1' '3 2 80 1,2' '4 3 70 2' '5 4 120 3' '6 5 60 -'
}

# prints_table PROGRAM: the levels that document 02 gives for it
prints_table() {
  shipped | "$1" > "$work/levels" && printf '%s\n' '1 6 6' '2 2 4' '3 3 4' '4 4 4' '5 1 6' '6 5 0' | cmp - "$work/levels"
}

# prints_examples COMMAND..: it prints of each example's sheet, on standard input, what stands beside it
prints_examples() {
  local sheet
  for sheet in examples/*.sheet; do
    "$@" < "$sheet" | cmp - "${sheet%.sheet}.levels" || return 1
  done
}

# the sheet that the kit ships with is, byte for byte, the one in the code; and so are its levels
shipped_alike() {
  "$host" shipped | cmp - examples/table-6.1.sheet && "$host" table | cmp - examples/table-6.1.levels
}

# refuses PROGRAM: standard input is no sheet, and the program prints only that
refuses() {
  timeout 10 "$1" > "$work/levels" && printf 'refused 13\n' | cmp - "$work/levels"
}

# streams PROGRAM: it keeps no more of its input than a sheet can have: 16 MB of address space are enough for more than that
streams() {
  { shipped; head -c 20000000 /dev/zero; } | (ulimit -v 16384 && refuses "$1") &&
    { shipped; yes '7 7 7 7' 2> /dev/null | head -n 3000000; } | (ulimit -v 16384 && refuses "$1")
}

# stops PROGRAM: it ends though its input does not
stops() {
  yes x 2> /dev/null | refuses "$1" && { shipped; cat /dev/zero; } 2> /dev/null | refuses "$1"
}

# the header declares what is linked
declared() {
  printf '%s\n' '#include "cards.h"' \
    'size_t (*const levels)(const uint8_t *, size_t, uint32_t *, size_t) = cards_levels;' \
    'size_t (*const sheet)(uint8_t *, size_t) = cards_shipped_sheet;' \
    'size_t (*const tasks)(void) = cards_shipped_tasks;' \
    'uint32_t (*const shipped[])(size_t) = {cards_shipped_task, cards_shipped_task_level, cards_shipped_transaction_level};' |
    gcc -x c -std=c99 -Iinclude -Wall -Wextra -Werror -pedantic -fsyntax-only -
}

# the C functions, linked with the reference
lists_built() {
  make --no-print-directory lib && tests/linked.sh sheets build/libcards.a
}

check "table 6.1 by the reference" prints_table "$bin/levels-reference"
check "the reference against itself" compares_alike
check "a fault is found" finds_a_fault

check "table 6.1 by levels" prints_table "$levels"
check "examples by levels" prints_examples "$levels"
check "levels, sheets by seed" compares --seed 1 --count 3000 "$levels"
check "levels, input in pieces" compares --pieces --seed 1 --count 40 "$levels"
check "levels, constant memory" streams "$levels"
check "levels, an input without end" stops "$levels"

check "C functions: declared" declared
check "C functions: the archive, linked" lists_built
check "C functions: the host" make --no-print-directory host
check "C functions: the shipped sheet and its levels" shipped_alike
check "examples by the C functions" prints_examples "$host" levels
check "C functions, sheets by seed and all one byte away" "$lists" --seed 1 --count 20000
check "C functions: faults are found" "$lists" --faults --seed 1 --count 300

counts
