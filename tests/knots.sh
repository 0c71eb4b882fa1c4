#!/usr/bin/env bash
# Machines that are wrong in crates/one_core, definition, code and proofs alike, and in machine's rule where it says the same: one_core is
# proved, and the claims about whole runs must refuse machine over it. tests/knots/*.edit are must-fail edits with paths that start at crates/.
# '# claims: NAME NAME ..' names files of crates/machine/proofs, or declarations in them (FILE:declaration), and each must be refused by
# itself, at a fact (tests/judge.sh). An edit may hold several wrong machines, none of which is refused where another must be: '# knot:
# NAME: words' and a line of claims for each, and no claim twice; without '# knot:' it is one, named as its file, and its first line says
# in words what it is. Four edits at a time. Ends in 'N passed, M failed', which counts wrong machines.
# Usage: tests/knots.sh [LABEL ..]; KEEP=DIR keeps the logs there; EDITS=DIR has other edits (make guards: tests/knots/guards)
set -u
cd "$(dirname "$0")/.." || exit 1
. tests/judge.sh && . tests/apply.sh || exit 1
work=$(mktemp -d)
trap 'rm -rf "$work"' EXIT

# what each try starts from: the three crates, proved
mkdir -p "$work/base/crates"
tar -c --exclude=out --exclude=must-fail --exclude=guards crates/objset crates/one_core crates/machine | tar -x -C "$work/base"
grep -E '^(objset|one_core|machine):' crates.txt >"$work/base/crates.txt"
if ! (cd "$work/base/crates/machine" && rt check) >"$work/base.log" 2>&1; then
  cat "$work/base.log"
  echo "0 passed, 1 failed"
  exit 1
fi

# try EDIT: proves one_core with the edit and checks machine over it; says what is wrong, unless machine is refused
try() {
  local copy
  copy=$work/$(basename "$1" .edit)
  mkdir "$copy"
  tar -c -C "$work/base" --exclude=out crates crates.txt | tar -x -C "$copy"
  if grep '^file: ' "$1" | grep -qvE '^file: (one_core|machine)/'; then echo "it changes a file that is not of one_core or machine"; return; fi
  apply "$1" "$copy/crates" || return
  (cd "$copy/crates/one_core" && rt check --jobs 1) >"$copy/one_core.log" 2>&1 || { echo "one_core is refused"; grep -m 3 ': error' "$copy/one_core.log"; return; }
  if (cd "$copy/crates/machine" && rt check --jobs 1) >"$copy/machine.log" 2>&1; then echo "machine is still proved"; return; fi
  grep -q '^logic=not-proved' "$copy/machine.log" || { echo "machine did not reach the prover"; head -n 5 "$copy/machine.log"; }
}

# place CLAIM LOG: where the claim is refused by itself at a fact
place() {
  local name=''
  case $1 in *:*) name=${1#*:} ;; esac
  refused "$2" "${1%%:*}" "$name"
}

passed=0
failed=0
# flush EDIT ..: waits for those that are being tried, and judges each wrong machine in them
flush() {
  local edit label knots claims i wrong claim name said
  wait
  for edit in "$@"; do
    label=$(basename "$edit" .edit)
    mapfile -t knots < <(sed -n 's/^# knot: \([^:]*\): .*/\1/p' "$edit")
    mapfile -t claims < <(sed -n 's/^# claims: *\([^ ]\)/\1/p' "$edit")
    [ "${#knots[@]}" -gt 0 ] || knots=("$label")
    said=$(head -n 1 "$edit" | grep -E '^# .*[a-z]' | grep -viE '^# *(claims|wrong) *:')
    for i in "${!knots[@]}"; do
      wrong=$(cat "$work/$label.out")
      [ "${#claims[@]}" -eq "${#knots[@]}" ] || wrong="it has not a line of claims for each wrong machine"
      [ -z "$(tr ' ' '\n' <<<"${claims[*]}" | sort | uniq -d)" ] || wrong="it names a claim twice"
      [ -n "$said" ] || wrong="its first line does not say what wrong machine it makes"
      if [ -z "$wrong" ]; then
        for claim in ${claims[i]}; do [ -n "$(place "$claim" "$work/$label/machine.log")" ] || wrong="$wrong $claim"; done
        [ -z "$wrong" ] || wrong="not refused by itself in machine/proofs:$wrong"
      fi
      if [ -z "$wrong" ]; then
        passed=$((passed + 1))
        echo "${knots[i]}: refused by the claims (first: $(place "${claims[i]%% *}" "$work/$label/machine.log"))"
      else
        failed=$((failed + 1))
        echo "${knots[i]}: FAILED"
        echo "$wrong"
      fi
    done
    for name in one_core machine; do
      if [ -n "${KEEP:-}" ] && [ -f "$work/$label/$name.log" ]; then cp "$work/$label/$name.log" "$KEEP/$label.$name.log"; fi
    done
    rm -rf "${work:?}/$label"
  done
}

batch=()
tried=0
for edit in "${EDITS:-tests/knots}"/*.edit; do
  [ -f "$edit" ] || continue
  if [ $# -gt 0 ]; then case " $* " in *" $(basename "$edit" .edit) "*) ;; *) continue ;; esac; fi
  try "$edit" >"$work/$(basename "$edit" .edit).out" 2>&1 &
  batch+=("$edit")
  tried=$((tried + 1))
  if [ "${#batch[@]}" -eq 4 ]; then
    flush "${batch[@]}"
    batch=()
  fi
done
[ "${#batch[@]}" -eq 0 ] || flush "${batch[@]}"
if [ "$tried" -eq 0 ] || { [ $# -gt 0 ] && [ "$tried" -ne $# ]; }; then
  failed=$((failed + 1))
  echo "some edits are not there"
fi
echo "$passed passed, $failed failed"
[ "$failed" -eq 0 ]
