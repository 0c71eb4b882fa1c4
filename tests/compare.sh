#!/usr/bin/env bash
# What programs print, held to what they must print. Ends in 'N passed, M failed'.
set -u
cd "$(dirname "$0")/.."
bin=reference/target/release
cargo build --quiet --release --offline --manifest-path reference/Cargo.toml || { echo "0 passed, 1 failed"; exit 1; }
cards=build/cards
levels=build/levels
host=build/cards_host
peer=build/cards_peer
door=crates/calls_door/out/libcalls_door.a
calls=reference/target/calls/release/compare-calls
scripts=20000
. tests/count.sh

# prints_examples COMMAND..: the command, with a script as its standard input and as its last word, prints each example's listing
prints_examples() {
  local script
  for script in examples/*.script; do
    "$@" "$script" < "$script" > "$work/listing" && cmp "$work/listing" "${script%.script}.listing" || return 1
  done
}

by_reference() { "$bin/cards-reference"; }
by_cards() { "$cards"; }
by_entry() { "$host" run "$1"; }
by_peer() { "$peer"; }

# compares OPTIONS.. PROGRAM..: a difference ends the gate in some minutes, though the fewest lines that show it may take longer to find
compares() {
  "$bin/compare" --search 600 "$@"
}

# the comparison of two programs by seeded scripts finds nothing between the reference and itself,
compares_alike() {
  compares --seed 1 --count 300 "$bin/cards-reference"
}

# and finds the fault of a program that forgets the last line, which empty input shows,
finds_a_fault() {
  ! compares --seed 1 --count 300 sh -c "$bin/cards-reference | sed '\$d'" > "$work/fault" 2>&1 \
    && grep -A1 '^shortest script, 0 bytes:$' "$work/fault" | grep -qx 'fewest: every smaller choice was tried'
}

# and of one that says finished for ended, which five lines show and no four of them
finds_the_fewest() {
  ! compares --quick --seed 1 --count 2000 sh -c "$bin/cards-reference | sed 's/ended/finished/'" > "$work/fault" 2>&1 \
    && grep -qx 'fewest: every smaller choice was tried' "$work/fault" \
    && sed '/^shortest script/,/^fewest/!d' "$work/fault" | grep -oE '\<(call|setup|release|begin|giveup)\>|^  ' > "$work/words" \
    && [ "$(tr -d '\n' < "$work/words")" = "  call  setup  release  begin  giveup" ]
}

# the claims of demands 2 and 3 on contended runs of the reference
claims_hold() {
  "$bin/check-run" --seed 1 --count 1000
}

# and on case A and a longer script as they are listed
claims_hold_on_case_a() {
  "$bin/check-run" examples/case-a.listing < examples/case-a.script
}

# and on runs of cards: machines of several sizes, runs of several shapes
claims_hold_on_cards() {
  local cores objects seed
  for cores in 1 2 3 4 8 16; do
    for objects in 1 2 5 64; do
      for seed in 10 12 15; do
        "$bin/make-script" $seed $cores $objects 10000 > "$work/script"
        "$cards" < "$work/script" > "$work/listing" || return 1
        "$bin/check-run" "$work/listing" < "$work/script" > "$work/claims"
        grep -qx 'checked 1 runs (9998 calls), 0 claims broken' "$work/claims" ||
          { echo "make-script $seed $cores $objects 10000:"; head -5 "$work/claims"; return 1; }
      done
    done
  done
}

# lines COUNT END: a script of so many lines, the last one ended by END
lines() {
  printf 'call core card value\nsetup 1 1 -\n'
  yes 'begin 0 - -' | head -n "$(($1 - 3))"
  printf 'commit 0 - -%s' "$2"
}

# by_the_million COMMAND..: scripts of a million lines and of one more, in the last of which is only one byte, and of many more
by_the_million() {
  local script=$work/script
  lines 1000000 "" > "$work/line-1000000"
  lines 1000000 $'\n' > "$work/line-1000000-ended"
  lines 1000001 $'\n' > "$work/line-1000001"
  { lines 1000000 $'\n'; printf x; } > "$work/line-1000001-short"
  lines 1000500 $'\n' > "$work/line-1000500"
  for script in "$work"/line-*; do
    "$bin/cards-reference" < "$script" > "$work/expected"
    "$@" "$script" < "$script" > "$work/listing" && cmp "$work/listing" "$work/expected" || return 1
  done
  rm -f "$work"/line-*
}

# streams PROGRAM: it keeps no more of its input than it needs: 16 MB of address space are enough for a script of more
streams() {
  "$bin/make-script" 10 16 64 1000000 > "$work/script"
  [ "$(wc -c < "$work/script")" -gt 10000000 ] || return 1
  { cat "$work/script"; head -c 8000000 /dev/zero; } > "$work/longer"
  (ulimit -v 16384 && "$1" < "$work/longer" > "$work/listing") || return 1
  "$bin/cards-reference" < "$work/longer" | cmp - "$work/listing"
}

# stops PROGRAM: nothing is read after a bad names line: it ends though its input does not
stops() {
  yes x 2> /dev/null | timeout 10 "$1" > "$work/listing" && printf 'line answer value\n1 refused 11\n' | cmp - "$work/listing"
}

# manual_runs KIND PROGRAM COUNT: the blocks of this kind in docs/MANUAL.md, at least so many, are what the program prints: its input stands
# left of the bar, what it prints right of it, where a line with nothing right of the bar has none
manual_runs() {
  local input count=0
  rm -f "$work"/manual-*
  awk -v dir="$work" -v kind="\`\`\`$1" '
    $0 == kind { n++; on = 1; next }
    /^```$/ { on = 0 }
    on {
      bar = index($0, "|"); line = substr($0, 1, bar - 1); sub(/ +$/, "", line)
      print line > (dir "/manual-" n ".input")
      if (length($0) > bar) print substr($0, bar + 2) > (dir "/manual-" n ".printed")
    }' docs/MANUAL.md
  for input in "$work"/manual-*.input; do
    "$2" < "$input" | cmp - "${input%.input}.printed" || return 1
    count=$((count + 1))
  done
  [ "$count" -ge "$3" ]
}

# the calls of Machine behind an exported door, linked with the reference: an archive of its own
calls_built() {
  mkdir -p build
  (cd crates/calls_door && rt lib) > build/calls_door.log 2>&1 || { tail -20 build/calls_door.log; return 1; }
  tests/linked.sh calls "$door"
}

# nothing of that door is in what is delivered
door_is_apart() {
  nm "$door" | grep -q ' T calls_door$' || { echo "no door in its own archive"; return 1; }
  nm build/libcards.a "$cards" > "$work/names" && grep -q ' T cards_run$' "$work/names" && ! grep calls_door "$work/names"
}

# the archive needs no more than cards.h says, and has no variable that could be kept between calls
archive_is_plain() {
  local needs
  needs=$(nm -u build/libcards.a | sed -n 's/^ *U //p' | sort -u | grep -vxE 'memcpy|memmove|memset|memcmp')
  [ -z "$needs" ] || { echo "build/libcards.a needs:" $needs; return 1; }
  ! nm build/libcards.a | grep -E ' [BbCDd] '
}

check "examples by the reference" prints_examples by_reference
check "the reference against itself" compares_alike
check "a fault is found" finds_a_fault
check "the fewest lines are found" finds_the_fewest
check "claims on contended runs" claims_hold
check "claims on case A" claims_hold_on_case_a

check "examples by cards" prints_examples by_cards
check "cards, scripts of any length" compares --limit 60 --seed 1 --count 300 "$cards"
check "cards, quick scripts" compares --quick --seed 1 --count $scripts "$cards"
check "cards, input in pieces" compares --pieces --seed 1 --count 100 "$cards"
check "cards, a million lines" by_the_million by_cards
check "cards, constant memory" streams "$cards"
check "cards, an input without end" stops "$cards"
check "the runs of the manual" manual_runs run "$cards" 7
check "the sheets of the manual" manual_runs levels "$levels" 3
check "claims on runs of cards" claims_hold_on_cards

check "calls: the door, built" calls_built
check "calls of Machine, by seed" "$calls" --seed 1 --count 1000
check "calls: faults are found" "$calls" --faults --seed 1 --count 100

check "C entry: the archive and its host" make --no-print-directory host
check "C entry: an archive without needs or variables" archive_is_plain
check "C entry and cards: without the door for calls" door_is_apart
check "C entry: known calls" "$host" selftest
check "examples by the C entry" prints_examples by_entry
check "C entry, scripts of any length" compares --frames --limit 60 --seed 1 --count 300 "$host" frames
check "C entry, quick scripts" compares --frames --quick --seed 1 --count $scripts "$host" frames
check "C entry, a million lines" by_the_million by_entry
if [ -x "${host}_checked" ]; then
  check "C entry: known calls, with sanitizers" "${host}_checked" selftest
  check "C entry, quick scripts, with sanitizers" compares --frames --quick --seed 30001 --count 2000 "${host}_checked" frames
fi

check "peer: built" make --no-print-directory peer
check "examples by the peer" prints_examples by_peer
check "peer, scripts of any length" compares --limit 60 --seed 1 --count 300 "$peer"
check "peer, quick scripts" compares --quick --seed 1 --count $scripts "$peer"
check "peer, input in pieces" compares --pieces --seed 1 --count 100 "$peer"
check "peer, a million lines" by_the_million by_peer
check "peer, constant memory" streams "$peer"
check "peer, an input without end" stops "$peer"

counts
