#!/usr/bin/env bash
# Instructions per call, counted by callgrind: prints the tables of docs/BENCHMARKS.md. The same numbers on every run. "inside" is a call
# in place: the loop over the list holds the record and makes the call on it where it stands, copying none. "no call" is what the loop
# itself costs, for a number that is no call.
set -eu
cd "$(dirname "$0")/.."
tests/tool.sh rt cargo gcc valgrind

out=build/bench
valgrind=$(command -v valgrind)
few=10
many=110
mkdir -p "$out"
(cd crates/bench_calls && rt lib) >"$out/lib.log" 2>&1 || { tail -20 "$out/lib.log"; exit 1; }
cargo build --quiet --release --offline --manifest-path bench/reference/Cargo.toml --target-dir "$out/reference"
gcc -O2 -o "$out/calls" bench/calls.c crates/bench_calls/out/libbench_calls.a "$out/reference/release/libbench_reference.a" -lpthread -ldl -lm

# counted WHICH CORES CALL COUNT: the instructions of all runs of the list, one at each place of the stack, each with a line of output
counted() {
  env -i "$valgrind" --quiet --tool=callgrind --callgrind-out-file="$out/profile" --toggle-collect="bench_calls_$1" \
    "$out/calls" "$1" "$2" "$3" "$4" >"$out/answer.$1"
  sed -n 's/^summary: //p' "$out/profile"
}

# turn WHICH CORES CALL: the instructions of one turn, which puts the record back and makes the call: the mean over the places
turn() {
  echo $((($(counted "$1" "$2" "$3" $many) - $(counted "$1" "$2" "$3" $few)) / (many - few) / $(wc -l <"$out/answer.$1")))
}

# same_answer CALL WHICH WHICH: both gave the same answer last
same_answer() {
  cmp -s "$out/answer.$2" "$out/answer.$3" || { echo "calls.sh: $1: $2 and $3 answer differently" >&2; exit 1; }
}

# times A B: A over B, to two places
times() {
  awk -v a="$1" -v b="$2" 'BEGIN { printf "%.2f", a / b }'
}

# the table of a machine of $1 cores
table() {
  local cores=$1 call door inside reference tested alone test idle reference_test reference_idle inside_none door_none reference_none
  door_none=$(turn door "$cores" none)
  inside_none=$(turn inside "$cores" none)
  reference_none=$(turn reference "$cores" none)
  test=$(($(turn door "$cores" test) - door_none))
  idle=$(($(turn door "$cores" test-idle) - door_none))
  reference_test=$(($(turn reference "$cores" test) - reference_none))
  reference_idle=$(($(turn reference "$cores" test-idle) - reference_none))
  echo
  echo "### Cores: $cores, cards: 64"
  echo
  echo "| call | inside | reference | reference less its test | inside / reference less its test | door | door's extra |"
  echo "|---|---:|---:|---:|---:|---:|---:|"
  for call in setup release begin read write commit commit-read-only give-up finish; do
    door=$(($(turn door "$cores" $call) - door_none))
    reference=$(($(turn reference "$cores" $call) - reference_none))
    same_answer $call door reference
    if [ $call = setup ]; then
      echo "| $call | | $reference | | | $door | |"
    else
      inside=$(($(turn inside "$cores" $call) - inside_none))
      same_answer $call door inside
      case $call in release | begin | finish) tested=$reference_idle ;; *) tested=$reference_test ;; esac
      alone=$((reference - tested))
      echo "| $call | $inside | $reference | $alone | $(times "$inside" "$alone") | $door | $((door - inside)) |"
    fi
  done
  echo "| no call | $(($(turn inside "$cores" test) - inside_none)) | | | | | |"
  echo "| soundness test, core 0 idle | | $reference_idle | | | $idle | |"
  echo "| soundness test, core 0 in a transaction | | $reference_test | | | $test | |"
}

for cores in 1 4 16; do table $cores; done
