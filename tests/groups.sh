#!/usr/bin/env bash
# The example sheets: their levels, and the pictures of their groups (docs/groups-svg.sh), which are read back and held to the sheets. Ends in
# 'N passed, M failed'.
set -u
cd "$(dirname "$0")/.."
bin=reference/target/release
cargo build --quiet --release --offline --manifest-path reference/Cargo.toml || { echo "0 passed, 1 failed"; exit 1; }
. tests/count.sh
. tests/svg.sh

picture() { sh docs/groups-svg.sh "$@"; }

# prints_levels PROGRAM: it prints the stored levels of each example
prints_levels() {
  local sheet
  for sheet in examples/*.sheet; do
    "$1" < "$sheet" | cmp - "${sheet%.sheet}.levels" || return 1
  done
}

# the file of the shipped sheet has the bytes of its definition, and `levels` is held to it
shipped() {
  printf "$(sed -n 's/^shipped_sheet = ascii "\(.*\)"$/\1/p' crates/sheet/specs/Shipped.antt)" | cmp - examples/table-6.1.sheet &&
    cmp crates/levels/stdin examples/table-6.1.sheet && cmp crates/levels/stdout examples/table-6.1.levels
}

# read_back PICTURE: for each task its box, number, core, deadline, cards, task level and transaction level; box `-` for those without cards
read_back() {
  awk '
    /rx="6" class="(bar|dash)"/ { box = /"dash"/ ? "-" : ++boxes }
    /width="20" height="18"\/><text/ { match($0, /M[0-9]+/); x = substr($0, RSTART + 1, RLENGTH - 1); sub(/<\/text>$/, ""); sub(/.*>/, ""); card[box, x] = $0 }
    /^<circle/ { dots = $0 }
    /width="68"/ {
      cards = ""
      while (match(dots, /cx="[0-9]+/)) {
        cards = cards "," card[box, substr(dots, RSTART + 4, RLENGTH - 4)]
        dots = substr(dots, RSTART + RLENGTH)
      }
      gsub(/<[^>]*>/, " ")
      print box, $1, $2, $3, cards == "" ? "-" : substr(cards, 2), $4, $5
    }' "$1"
}

# tasks_of SHEET: number, core, deadline and cards of each task, in this order
tasks_of() {
  awk 'NR == 1 { for (i = 1; i <= 4; i++) at[$i] = i; next } { print $at["task"], $at["core"], $at["deadline"], $at["cards"] }' "$1"
}

# apart_and_joined: of tasks read back, no card is in two boxes, and in each box the cards of one task, with those of each task that uses one of
# them, and so on, are those of all
apart_and_joined() {
  awk '
    $1 == "-" { if ($5 != "-") bad = 1; next }
    {
      n++
      box[n] = $1
      cards[n] = "," $5 ","
      if (!($1 in reached)) { reached[$1] = cards[n]; in_it[n] = 1 }
      k = split($5, list, ",")
      for (i = 1; i <= k; i++) { if (list[i] in home && home[list[i]] != $1) bad = 1; home[list[i]] = $1 }
    }
    END {
      do {
        more = 0
        for (t = 1; t <= n; t++) {
          if (in_it[t]) continue
          k = split(cards[t], list, ",")
          for (i = 2; i < k; i++) if (index(reached[box[t]], "," list[i] ",")) { in_it[t] = more = 1; reached[box[t]] = reached[box[t]] cards[t]; break }
        }
      } while (more)
      for (t = 1; t <= n; t++) if (!in_it[t]) bad = 1
      exit bad
    }'
}

# true_to SHEET LEVELS: the picture has the tasks of the sheet, with these levels and in these groups; or there is none, where the sheet is refused
true_to() {
  if [ "$(cat "$2")" = "refused 13" ]; then refuses 1 "groups: " "$1"; return; fi
  picture "$1" > "$work/svg" && read_back "$work/svg" > "$work/tasks" || return 1
  cut -d' ' -f2-5 "$work/tasks" | sort | diff <(tasks_of "$1" | sort) - || return 1
  cut -d' ' -f2,6,7 "$work/tasks" | sort | diff <(sort "$2") - && apart_and_joined < "$work/tasks"
}

# drawn SHEET: the picture stands by itself
drawn() { picture "$1" > "$work/svg" && by_itself "$work/svg"; }

# by_seed COUNT: pictures of seeded sheets, valid and damaged, held to the reference
by_seed() {
  local seed
  for seed in $(seq "$1"); do
    "$bin/make-sheet" "$seed" > "$work/seeded.sheet" && "$bin/levels-reference" < "$work/seeded.sheet" > "$work/levels" &&
      true_to "$work/seeded.sheet" "$work/levels" || { echo "make-sheet $seed"; return 1; }
  done
}

# 32 tasks that all use all 64 cards
largest() {
  { echo 'task core deadline cards'; seq 32 | sed "s/\$/ 15 4294967295 $(seq -s, 0 63)/"; } > "$work/largest.sheet"
  seq 32 | sed 's/$/ 1 1/' > "$work/levels"
  true_to "$work/largest.sheet" "$work/levels"
}

# what is read back sees a dot that is missing, and a group in two boxes
sees_wrong() {
  sed 's|<circle cx="52" cy="226" r="4" class="solid"/>||' docs/table-6.1.svg > "$work/wrong"
  ! cmp -s docs/table-6.1.svg "$work/wrong" && ! read_back "$work/wrong" | cut -d' ' -f2-5 | sort | cmp -s - <(tasks_of examples/table-6.1.sheet) || return 1
  ! read_back docs/table-6.1.svg | sed '/^2 4 /s/^2/9/' | apart_and_joined && ! read_back docs/table-6.1.svg | sed 's/^2/1/' | apart_and_joined
}

# refuses STATUS WORDS ARGUMENT..: nothing on standard output, one line with these words on standard error, and the status
refuses() {
  local status=$1 words=$2 got
  shift 2
  picture "$@" > "$work/out" 2> "$work/error"
  got=$?
  [ $got -eq "$status" ] && [ ! -s "$work/out" ] && [ "$(wc -l < "$work/error")" -eq 1 ] && grep -qF -- "$words" "$work/error" ||
    { echo "groups-svg.sh $*: status $got"; cat "$work/error"; return 1; }
}

# no_sheet WORDS TEXT: the text as printf makes it is refused with these words
no_sheet() {
  printf "$2" > "$work/text"
  refuses 1 "$1" "$work/text"
}

for program in "$bin/levels-reference" build/levels; do check "levels of the examples by $program" prints_levels "$program"; done
for sheet in examples/*.sheet; do check "$sheet: picture" true_to "$sheet" "${sheet%.sheet}.levels"; done
check "table 6.1: the file and the definition" shipped
check "the stored picture of table 6.1" diff docs/table-6.1.svg <(picture examples/table-6.1.sheet)
check "table 6.1: by itself" drawn examples/table-6.1.sheet
check "table 6.1: two groups" [ "$(grep -c '>group [12]: ' docs/table-6.1.svg)" -eq 2 ]
check "shown" grep -qF '](table-6.1.svg)' docs/MANUAL.md
check "sheets by seed" by_seed 12
check "the largest sheet" largest
check "wrong pictures are seen" sees_wrong

names='task core deadline cards\n'
check "names" no_sheet "has not the names" 'task core deadline card\n1 0 50 3\n'
check "no task" no_sheet "has no task" "$names"
check "no bytes" no_sheet "has no task" ''
check "a carriage return" no_sheet "no numbers 0 to 63" "${names}1 0 50 3\r\n"
check "two spaces" no_sheet "four fields" "${names}1  0 50 3\n"
check "an empty last line" no_sheet "line 3 of the sheet" "${names}1 0 50 3\n\n"
check "falling cards" no_sheet "do not rise" "${names}1 0 50 3,1\n"
check "a number twice" no_sheet "task 1 stands above" "${names}1 0 50 3\n1 1 60 -\n"
check "33 tasks" no_sheet "more than 32 tasks" "$names$(seq -f '%g 0 0 -\n' -s '' 33)"
check "no argument" refuses 2 usage:
check "two arguments" refuses 2 usage: examples/table-6.1.sheet x
check "no such file" refuses 2 "cannot read examples/none.sheet" examples/none.sheet
check "a folder" refuses 2 "cannot read examples" examples

counts
