# Read by edits.sh and knots.sh: whether the prover's log refuses a name at a fact. A refusal is at a fact where two types differ, an
# equation or an arithmetic goal does not hold, or a search or a rewriting leaves a goal without proof. Every other kind is form alone, and
# so is a kind that is not known here: what the proof asks for is gone ('has no `goal`', 'is not in scope', 'has no field', 'that can be
# named from here'), something beneath it is refused ('was not admitted', 'it calls .., which is not proved'), a rewriting finds nothing to
# rewrite ('no occurrence'), too few or too many arguments. A difference between two places of the code (`Lts.After-..`) is form too: they
# differ where a statement has come or gone.
facts='the two (types|sides|indices) (differ|first differ|are) |: expected type `|: no proof of `|the goal does not follow from |`: does not hold \(|: give a proof of that as the last argument'
shape=' where one has `[^` ]*\.Lts\.'
form=' that can be named from here| has no field | is not in scope|was not admitted'

# refused LOG FILE [DECLARATION]: the place where LOG refuses the file of proofs, or the declaration in it, at a fact; nothing if it does not
refused() {
  local name='`'
  [ -z "${3:-}" ] || name="\`$3\`: "
  grep -F "/proofs/$2.antt:" "$1" 2>/dev/null | grep -F ": error: $name" | grep -E "$facts" | grep -m 1 -vE "$shape" |
    sed -E 's/^.*\/(proofs\/[^ ]*): error: .*/\1/'
}

# unproved LOG CRATE FUNCTION: the goal of the function, a folder of the crate's proofs, that LOG says has no proof: one that a file of its
# proof refuses at a fact, or one that the search leaves, where the files of its proof ask for nothing that is gone
unproved() {
  local file place
  for file in Answers Invariants Proof; do
    place=$(refused "$1" "$3/$file")
    if [ -n "$place" ]; then echo "$place"; return; fi
  done
  if grep -E "^(\./)?proofs/$3/(Answers|Invariants|Proof)\.antt:" "$1" 2>/dev/null | grep -qE ": error: .*($form)"; then return; fi
  sed -nE "s/^fn $2::${3//\//::}: .*\`search\` did not prove (\`[^\`]*\`).*/\1/p" "$1" 2>/dev/null | head -n 1
}
