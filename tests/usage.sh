#!/usr/bin/env bash
# What the program and the commands say to who uses them wrongly, and what the builds say. Ends in 'N passed, M failed'.
set -u
cd "$(dirname "$0")/.."
. tests/count.sh

# says PATTERN COMMAND..: nothing on standard output and one line on standard error, which the pattern matches whole; at once, though
# the input does not end
says() {
  local pattern=$1
  shift
  yes 2> /dev/null | timeout 10 "$@" > "$work/out" 2> "$work/error"
  [ "${PIPESTATUS[1]}" -ne 124 ] && [ ! -s "$work/out" ] && [ "$(wc -l < "$work/error")" -eq 1 ] && grep -qxE "$pattern" "$work/error" ||
    { echo "$* says:"; cat "$work/out" "$work/error"; return 1; }
}

# refuses PATTERN COMMAND..: says so, and fails
refuses() { says "$@" && ! timeout 10 "${@:2}" > /dev/null 2>&1; }

# path_without TOOL: a folder with the tools that the builds use, but one
path_without() {
  local tool folder=$work/without-$1
  mkdir "$folder"
  for tool in bash dirname mkdir rm cat sed find sort tr xargs sha256sum gcc rt; do
    [ "$tool" = "$1" ] || ln -s "$(command -v "$tool")" "$folder"
  done
  echo "$folder"
}

# nothing has changed: no build does anything
unchanged() {
  tests/build.sh cards levels lib host > "$work/out" 2> "$work/error" && [ ! -s "$work/out" ] || return 1
  printf '%s: nothing has changed since it was made\n' build/cards build/levels build/libcards.a build/cards_host |
    diff - "$work/error"
}

# fails PATTERN COMMAND..: nothing on standard output and one line on standard error, which the pattern matches whole
fails() {
  "${@:2}" > "$work/out" 2> "$work/error"
  [ ! -s "$work/out" ] && [ "$(wc -l < "$work/error")" -eq 1 ] && grep -qxE "$1" "$work/error" ||
    { echo "${*:2} says:"; cat "$work/out" "$work/error"; return 1; }
}

# unread PROGRAM: standard input is a folder; unwritten PROGRAM: standard output is full
unread() { "$1" < /; }
unwritten() { "$1" < examples/table-6.1.sheet > /dev/full; }

# told LINE..: what the build of a copy with a stand-in for rt says, each line cut at its first bracket or comma
told() { PATH=$work/stand-in:$PATH "$work/copy/tests/build.sh" cards 2>&1 | sed 's/[(,].*//; s/ *$//' | diff <(printf '%s\n' "$@") -; }

# a build that works, one of what has not changed, one of a changed crate, one that fails and one after it was mended
build_tells() {
  mkdir -p "$work/copy/crates/cards/src" "$work/stand-in"
  cp -r tests crates.txt "$work/copy"
  printf '%s\n' '#!/bin/sh' '[ "$1" != version ] || exit 0' 'cat src/main.rt' 'grep -q right src/main.rt || exit 1' \
    'mkdir -p out; cp src/main.rt out/cards; chmod +x out/cards' > "$work/stand-in/rt"
  chmod +x "$work/stand-in/rt"
  local main=$work/copy/crates/cards/src/main.rt
  local first="build/cards is proved and built first" same="build/cards: nothing has changed since it was made"
  echo right > "$main"
  told "$first" "build/cards is written" && told "$same" || return 1
  echo right too > "$main"
  told "$first" "build/cards is written" && told "$same" || return 1
  printf 'so far good\nmain.rt:1:1: error: this is wrong\nso on\n' > "$main"
  told "$first" "build/cards: FAILED and not written; the lines with the error" "2:main.rt:1:1: error: this is wrong" \
    "build/cards: the whole log is build/cards.log" || return 1
  ! PATH=$work/stand-in:$PATH "$work/copy/tests/build.sh" cards 2> /dev/null || return 1
  echo right > "$main"
  told "$first" "build/cards is written" && rm "$work/copy/build/cards" && told "$first" "build/cards is written"
}

tests/build.sh cards levels lib host 2> "$work/error" || { cat "$work/error"; echo "0 passed, 1 failed"; exit 1; }
usage='cards: usage: cards < SCRIPT > LISTING'
check "cards with an argument" says "$usage" build/cards x
check "cards with a file's name" says "$usage" build/cards examples/case-a.script
check "cards with an empty argument" says "$usage" build/cards ""
check "cards with many arguments" says "$usage" build/cards 1 2 3 --help
usage='levels: usage: levels < SHEET > LEVELS'
check "levels with an argument" says "$usage" build/levels x
check "levels with a file's name" says "$usage" build/levels examples/table-6.1.sheet
check "levels with an empty argument" says "$usage" build/levels ""
check "levels with many arguments" says "$usage" build/levels 1 2 3 --help
check "levels: a read that fails" fails 'levels: read: .+' unread build/levels
check "levels: a write that fails" fails 'levels: write: .+' unwritten build/levels
check "cards: a write that fails" fails 'cards: write: .+' unwritten build/cards
for seed in x -1 007 1.5 ' ' 1234567890123456789; do
  check "fuzz: seed '$seed'" refuses "SEED is a number .* not '$seed'; usage: make fuzz .*" tests/fuzz.sh "$seed" 1
done
for count in x 0 -1 08 1234567890; do
  check "fuzz: count '$count'" refuses "COUNT is a number .* not '$count'; usage: make fuzz .*" tests/fuzz.sh 1 "$count"
done
check "build: another word" refuses 'usage: .*' tests/build.sh x
without_rt=$(path_without rt)
without_gcc=$(path_without gcc)
check "build cards without rt" refuses 'missing tool: rt .*' env PATH="$without_rt" tests/build.sh cards
check "build levels without rt" refuses 'missing tool: rt .*' env PATH="$without_rt" tests/build.sh levels
check "build lib without rt" refuses 'missing tool: rt .*' env PATH="$without_rt" tests/build.sh lib
check "build host without gcc" refuses 'missing tool: gcc .*' env PATH="$without_gcc" tests/build.sh host
check "what a build tells" build_tells
check "nothing has changed" unchanged

counts
