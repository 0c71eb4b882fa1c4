#!/usr/bin/env bash
# The timelines (docs/timeline.sh, docs/timeline-svg.sh), held to stored ones and to the listings. Ends in 'N passed, M failed'.
set -u
cd "$(dirname "$0")/.."
. tests/count.sh
. tests/svg.sh

text() { sh docs/timeline.sh "$@"; }
picture() { sh docs/timeline-svg.sh "$@"; }

# stored EXAMPLE: its timeline is the stored one
stored() { text "$1.script" "$1.listing" | diff "$1.timeline" -; }

# true_to EXAMPLE: each line of the listing has a row that says its answer, and no other row says one
true_to() {
  text "$1.script" "$1.listing" | awk '
    !/^[0-9]/ || / ENDS \(setup\)/ { next }
    { said = "-" }
    match($0, /REFUSED [0-9]+/) { said = "refused " substr($0, RSTART + 8, RLENGTH - 8) }
    match($0, /ticket [0-9]+/) { said = "begun " substr($0, RSTART + 7, RLENGTH - 7) }
    match($0, /read card [0-9]+: [0-9]+/) { said = substr($0, RSTART, RLENGTH); sub(/.*: /, "value ", said) }
    /write card [0-9]+: [0-9]+/ { said = "written -" }
    match($0, / WAITS behind core [0-9]+/) { said = "waits " substr($0, RSTART + 19, RLENGTH - 19) }
    / SET BACK/ { said = "setback -" }
    match($0, /COMMITS \(set back [0-9]+/) { said = "committed " substr($0, RSTART + 18, RLENGTH - 18) }
    / GIVES UP/ { said = "ended -" }
    match($0, /finish: job [0-9]+/) { said = "finished " substr($0, RSTART + 12, RLENGTH - 12) }
    / release job .*: running/ { said = "running -" }
    / release job .*: queued/ { said = "queued -" }
    /^[0-9]+ +setup: .*cards?$/ { said = "ready -" }
    { print $1, said }' | diff <(tail -n +2 "$1.listing") -
}

# drawn EXAMPLE: its picture stands by itself, and says as often as the text what it says
drawn() {
  picture "$1.script" "$1.listing" > "$work/svg" && by_itself "$work/svg" || return 1
  local word
  for word in 'WAITS behind core [0-9]*' 'SET BACK' COMMITS 'GIVES UP' ENDS REFUSED; do
    [ "$(text "$1.script" "$1.listing" | grep -o "$word" | wc -l)" -eq "$(grep -o "$word" "$work/svg" | wc -l)" ] || return 1
  done
}

# pointed EXAMPLE: in its picture a line leads from each commit that waits to the bar of the core that it names, 10 units wide and 5 right of
# the core's heading; the legend has one more
pointed() {
  picture "$1.script" "$1.listing" | awk '
    { row = $0 }
    match(row, /<path d="M[0-9]+ [0-9]+H[0-9]+" class="dash"\/><path d="M[0-9]+/) {
      lines++
      tip = substr(row, RSTART, RLENGTH)
      sub(/.*M/, "", tip)
    }
    match(row, /WAITS behind core [0-9]+/) {
      waits++
      core = substr(row, RSTART + 18, RLENGTH - 18)
      if (tip != left[core] + 5 && tip != left[core] + 15) bad = 1
    }
    {
      while (match(row, /<text x="[0-9]+" y="[0-9]+" class="b">core [0-9]+</)) {
        x = core = substr(row, RSTART + 9, RLENGTH - 10)
        row = substr(row, RSTART + RLENGTH)
        sub(/".*/, "", x)
        sub(/.* /, "", core)
        left[core] = x
      }
      tip = ""
    }
    END { exit bad || lines != waits + (waits > 0) }'
}

# a broken picture is seen
sees_ill_formed() {
  sed 's|</title>||' docs/case-a.svg > "$work/svg"
  ! well_formed "$work/svg" 2> /dev/null || return 1
  sed 's|; time| \& time|' docs/case-a.svg > "$work/svg"
  ! well_formed "$work/svg" 2> /dev/null
}

# refuses STATUS WORDS ARGUMENT..: nothing on standard output, one line with these words on standard error, and the status
refuses() {
  local status=$1 words=$2 form got
  shift 2
  for form in timeline timeline-svg; do
    sh "docs/$form.sh" "$@" > "$work/out" 2> "$work/error"
    got=$?
    [ $got -eq "$status" ] && [ ! -s "$work/out" ] && [ "$(wc -l < "$work/error")" -eq 1 ] && grep -qF -- "$words" "$work/error" ||
      { echo "$form.sh $*: status $got"; cat "$work/error"; return 1; }
    [ "$status" -ne 2 ] || grep -qF "usage: sh docs/$form.sh SCRIPT LISTING" "$work/error" || return 1
  done
}

# shows SCRIPT LISTING TIMELINE: the three as printf makes them
shows() {
  printf "$1" > "$work/script"
  printf "$2" > "$work/listing"
  text "$work/script" "$work/listing" | diff <(printf "$3") - && picture "$work/script" "$work/listing" > "$work/svg" &&
    well_formed "$work/svg"
}

# the order of the fields makes no difference
any_order() {
  awk '{ if (NF == 4) print $4, $2, $3, $1; else print }' examples/every-answer.script > "$work/script"
  text "$work/script" examples/every-answer.listing | sed 's/"-* *[^"]*"/""/' |
    diff <(sed 's/"-* *[^"]*"/""/' examples/every-answer.timeline) -
}

# in_readme: README.md has the timelines of case A and, from line 5 on, of the display, and shows the picture of case A
in_readme() {
  awk '/^    line  core 0/ { on = 1 } !/^    / { on = 0 } on { sub(/^    /, ""); print }' README.md |
    diff <(cat examples/case-a.timeline && sed -n '1p;/^5 /,$p' examples/display.timeline) - && grep -q '](docs/case-a.svg)' README.md
}

for script in examples/*.script; do
  example=${script%.script}
  check "$example: stored timeline" stored "$example"
  check "$example: the listing's answers" true_to "$example"
  check "$example: picture" drawn "$example"
  check "$example: who is first in the way" pointed "$example"
done
check "the stored picture of case A" diff docs/case-a.svg <(picture examples/case-a.script examples/case-a.listing)
check "ill-formed pictures are seen" sees_ill_formed
check "README" in_readme
check "any order of the fields" any_order

heading='line answer value\n'
names='call core card value\n'
check "bad names" shows 'call core\nsetup 1 1 -\n' "${heading}1 refused 11\n" \
  'line  no machine\n1     "call core" is no line of names: REFUSED 11, nothing after it is read\n'
check "an empty script" shows '' "${heading}1 refused 11\n" 'line  no machine\n1     an empty script: REFUSED 11\n'
check "names alone" shows "$names" "$heading" ''
check "carriage returns" shows 'call core card value\r\nsetup 1 1 -\r\n' "${heading}1 refused 11\n" \
  'line  no machine\n1     "call core card value?" is no line of names: REFUSED 11, nothing after it is read\n'
check "a short listing" shows "${names}setup 1 1 -\nrelease 0 7 1\nbegin 0 - -\nread 0 0 -\n" "${heading}2 ready -\n3 running -\n4 begun 0\n" \
  'line  core 0                         no core\n2     setup: 1 core, 1 card\n3     release job 7, due 1: running
4     begin: ticket 0\n5     |                              no answer in the listing from here on\n'
check "markup in a line" shows "${names}a<b>&\"c\"\n" "${heading}2 refused 11\n" \
  'line  no machine\n2     "a<b>&"c"": REFUSED 11 (not a call)\n'

check "no argument" refuses 2 usage:
check "one argument" refuses 2 usage: examples/case-a.script
check "three arguments" refuses 2 usage: examples/case-a.script examples/case-a.listing x
check "no such file" refuses 2 "cannot read examples/none.listing" examples/case-a.script examples/none.listing
check "a folder" refuses 2 "cannot read examples" examples examples/case-a.listing
check "script and listing exchanged" refuses 1 "does not begin with" examples/case-a.listing examples/case-a.script
check "another listing" refuses 1 "cannot have been answered" examples/case-a.script examples/case-k.listing
for named in - 1 2 00; do
  sed "s/waits 0/waits $named/" examples/case-a.listing > "$work/other"
  check "waits $named for waits 0" refuses 1 "line 10 of the script cannot have been answered 'waits $named'" \
    examples/case-a.script "$work/other"
done
sed 's/waits 4/waits 2/' examples/first-in-the-way.listing > "$work/other"
check "waits behind one that is over" refuses 1 "line 20 of the script cannot have been answered 'waits 2'" \
  examples/first-in-the-way.script "$work/other"
head -n 3 examples/case-l.script > "$work/head"
check "a longer listing" refuses 1 "the listing has line 4, and the script has 3 lines" "$work/head" examples/case-l.listing

counts
