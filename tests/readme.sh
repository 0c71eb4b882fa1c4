#!/usr/bin/env bash
# readme.sh [FILE]: README's C program (the first block ```c of 'From C') compiles as C99 and C++ and by README's own line, with every
# warning an error, and prints the block ```text below it; the header's own examples do what it says; include/cards.h and the archive are
# as the header says. Ends in 'N passed, M failed'.
set -u
readme=$(realpath "${1:-$(dirname "$0")/../README.md}")
cd "$(dirname "$0")/.."
. tests/count.sh

# block LANGUAGE: the first fenced block of that language in the section 'From C'
block() {
  awk -v fence="\`\`\`$1" '
    /^## / && !on { here = $0 == "## From C" }
    on && $0 == "```" { exit }
    on { print }
    here && $0 == fence { on = 1 }' "$readme"
}

takes_out() {
  block c > "$work/example.c"
  cp "$work/example.c" "$work/example.cc"
  block text > "$work/expected"
  grep -q 'int main(' "$work/example.c" && grep -q . "$work/expected"
}

# prints COMMAND..: the command succeeds, with nothing on standard error, and prints the block
prints() { "$@" > "$work/printed" 2> "$work/error" && [ ! -s "$work/error" ] && diff "$work/expected" "$work/printed"; }

strict="-Wall -Wextra -Werror -Iinclude"

as_c() { gcc -std=c99 $strict "$work/example.c" build/libcards.a -o "$work/c" && prints "$work/c"; }

as_cpp() { g++ $strict "$work/example.cc" build/libcards.a -o "$work/cpp" && prints "$work/cpp"; }

# the line that README gives, in a folder that has what the repository's has
by_its_line() {
  local line
  line=$(awk '/^## / { here = $0 == "## From C" } here && /^    gcc / { print; exit }' "$readme")
  [ -n "$line" ] || { echo "no indented line 'gcc ..' in 'From C'"; return 1; }
  ln -s "$PWD/include" "$PWD/build" "$work" && (cd "$work" && prints sh -c "$line")
}

header_is_clean() {
  printf '#include "cards.h"\n#include "cards.h"\nsize_t (*entry)(const uint8_t *, size_t, uint8_t *, size_t) = cards_run;\n' > "$work/header.c"
  gcc -std=c99 -pedantic $strict -fsyntax-only "$work/header.c" || return 1
  ! command -v g++ > /dev/null || g++ -std=c++11 -pedantic $strict -fsyntax-only -x c++ "$work/header.c"
}

# the examples of the header, each from its static text to the call of what a caller has: they do what the indented lines below say
header_examples() {
  {
    printf '%s\n' '#include "cards.h"' '#include <stdio.h>' \
      'static void uart_write(const uint8_t *bytes, size_t length) { fwrite(bytes, 1, length, stdout); }' \
      'static void set_levels(unsigned task, unsigned level, unsigned transaction) { printf("%u %u %u\n", task, level, transaction); }'
    awk '
      /^ \*     static const char/ { on = 1; print "static void example" ++n "(void) {" }
      on { print substr($0, 3) }
      on && /uart_write\(|set_levels\(/ { on = 0; print "}" }
      END { printf "int main(void) {"; for (i = 1; i <= n; i++) printf " example%d();", i; print " return 0; }" }' include/cards.h
  } > "$work/examples.c"
  awk '
    / \*     (uart_write|for .* set_levels)\(/ { here = 1; next }
    here && /^ \*     / { print substr($0, 8); on = 1; next }
    on { here = on = 0 }' include/cards.h > "$work/done"
  [ "$(wc -l < "$work/done")" -eq 12 ] || { echo "not two examples with six lines each:"; cat "$work/done"; return 1; }
  gcc -std=c99 $strict "$work/examples.c" build/libcards.a -o "$work/examples" && "$work/examples" | diff "$work/done" -
}

# the archive uses no vector register but those of SSE, no floating point, no segment register and no operating system
only_sse() {
  objdump -d --no-show-raw-insn build/libcards.a > "$work/code" && grep -q '<cards_run>' "$work/code" || return 1
  ! grep -E '%[yz]mm|%mm[0-7]|%st|%[fg]s:|syscall|(add|sub|mul|div|sqrt|cvt)[a-z0-9]*[sp][sd] ' "$work/code"
}

tests/build.sh lib 2> "$work/log" || { cat "$work/log"; echo "0 passed, 1 failed"; exit 1; }
check "the program of 'From C' and what it prints" takes_out
check "as C99" as_c
if command -v g++ > /dev/null; then check "as C++" as_cpp; else echo "no g++ here: README's program is not compiled as C++"; fi
check "by README's line" by_its_line
check "the header, C99 and C++" header_is_clean
check "the header's examples" header_examples
if command -v objdump > /dev/null; then check "the archive's registers" only_sse; else echo "no objdump here"; fi

counts
