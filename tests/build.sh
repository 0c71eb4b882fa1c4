#!/usr/bin/env bash
# build.sh WHAT..: builds each, unless what it is made of and what was made are, byte for byte, as the last build left them:
#   cards   build/cards, proved      levels   build/levels, proved
#   lib   build/libcards.a, proved   host   build/cards_host, over lib
#   proved   build/cards and build/levels: those that rt ci has just proved, built and run
# Says on standard error what it does before it starts and what it wrote; where it fails, the lines with the error and the log.
set -u
cd "$(dirname "$0")/.."

# crates NAME: the files of a crate and of those that it is built from
crates() {
  local crate
  echo crates.txt
  for crate in "$1" $(sed -nE "s/^$1( [^:]*)?://p" crates.txt); do
    for part in src specs proofs stdin stdout args data; do
      [ ! -e "crates/$crate/$part" ] || find "crates/$crate/$part" -type f
    done
  done
}

# state WHAT: a number for the tool, the files and the result
state() {
  {
    case $1 in
      cards | levels | lib) rt version ;;
      host) gcc --version ;;
    esac
    case $1 in
      cards | levels) crates "$1"; echo "build/$1" ;;
      lib) crates entry; echo build/libcards.a ;;
      host) printf '%s\n' host/* include/cards.h build/libcards.a build/cards_host build/cards_host_checked ;;
    esac | sort | tr '\n' '\0' | xargs -0 sha256sum 2> /dev/null
  } | sha256sum
}

# program NAME: build/NAME. rt proves and builds it, and runs it, here on an empty input
program() {
  (cd "crates/$1" && rt run < /dev/null) && cp "crates/$1/out/$1" "build/$1"
}

# taken NAME: build/NAME, which rt ci has just built
taken() {
  rm -f "build/$1" "build/$1.state"
  cp "crates/$1/out/$1" "build/$1" && state "$1" > "build/$1.state"
}

make_cards() { program cards; }

make_levels() { program levels; }

make_lib() { (cd crates/entry && rt lib) && cp crates/entry/out/libentry.a build/libcards.a; }

make_host() { host/build.sh; }

# build WHAT MADE DOING TOOL..
build() {
  local what=$1 made=$2 doing=$3 log=build/$1.log began=$SECONDS
  shift 3
  tests/tool.sh "$@" || return 1
  if [ -e "$made" ] && [ "$(cat "build/$what.state" 2> /dev/null)" = "$(state "$what")" ]; then
    echo "$made: nothing has changed since it was made" >&2
    return 0
  fi
  rm -f "build/$what.state"
  echo "$made $doing" >&2
  if "make_$what" > "$log" 2>&1; then
    state "$what" > "build/$what.state"
    echo "$made is written ($((SECONDS - began)) s)" >&2
    return 0
  fi
  {
    echo "$made: FAILED and not written; the lines with the error, cut at 200 characters:"
    grep -nE 'error|NOT PROVED|FAILED' "$log" | sed "s|$PWD/||g" | cut -c1-200 | head -n 20 | grep . || tail -n 20 "$log"
    echo "$made: the whole log is $log"
  } >&2
  return 1
}

proving="is proved and built first, which takes some minutes (seconds where little has changed)"
mkdir -p build || exit 1
for what in "$@"; do
  case $what in
    cards | levels) build "$what" "build/$what" "$proving" rt || exit 1 ;;
    lib) build lib build/libcards.a "$proving" rt || exit 1 ;;
    host) build host build/cards_host "is compiled" gcc || exit 1 ;;
    proved) taken cards && taken levels || exit 1 ;;
    *) echo "usage: tests/build.sh cards|levels|lib|host|proved.." >&2; exit 2 ;;
  esac
done
