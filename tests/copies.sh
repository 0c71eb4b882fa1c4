# Read by the tests that compare wrong copies of the reference; $work is a folder of theirs.

# altered NAME FILE EDIT [FILE EDIT]..: a copy, $work/copy, in which sed has edited files of src/
altered() {
  local name=$1 copy=$work/copy
  shift
  rm -rf "$copy"
  mkdir "$copy"
  cp -r reference/Cargo.toml reference/Cargo.lock reference/link.rs reference/src "$copy"
  while [ $# -gt 0 ]; do
    sed -i "$2" "$copy/src/$1"
    ! cmp -s "reference/src/$1" "$copy/src/$1" || { echo "$name: nothing is altered in $1"; exit 1; }
    shift 2
  done
}

# built PROGRAM: the copy's program, $work/target/release/PROGRAM
built() {
  RUSTFLAGS=-Awarnings cargo build --quiet --release --offline --manifest-path "$work/copy/Cargo.toml" --target-dir "$work/target" --bin "$1"
}

# found NAME WORDS..: a line of the table for what `compare WORDS..` finds. Status 0 if it is sure, 1 if fewer lines may differ, 2 if nothing
# differs
found() {
  local name=$1
  shift
  reference/target/release/compare "$@" > "$work/report" || true
  awk -v name="$name" -v status=2 '
    / differs, a (script|sheet) of / { lines = $(NF - 1) }
    /^shortest (script|sheet), / { script = 1; left = 0; next }
    script && /^  / { left++; next }
    script { script = 0 }
    /^fewest: every smaller choice was tried$/ { sure = "sure"; status = 0 }
    /^found / { sure = "not sure"; status = 1 }
    /^choices tried: / { tried = $3; seconds = $5 }
    /no difference$/ { sure = "no difference" }
    END { printf "| %s | %s | %s | %s | %s | %s |\n", name, lines, left, tried, seconds, sure; exit status }
  ' "$work/report"
}
