#!/usr/bin/env bash
# Builds the C host over build/libcards.a: build/cards_host, and build/cards_host_checked with AddressSanitizer and UBSan where the
# machine has them. Also has a C++ compiler, where there is one, read the header.
set -eu
cd "$(dirname "$0")/.."
tests/tool.sh gcc
[ -r build/libcards.a ] || { echo "build.sh: no build/libcards.a; make lib makes it" >&2; exit 1; }
strict="-Wall -Wextra -Werror -Iinclude"
sources="host/cards_host.c host/lent.c host/selftest.c host/sheets.c host/stack.c host/tasks.c"
libraries="build/libcards.a -lpthread"
sanitizers="-fsanitize=address,undefined -fno-sanitize-recover=all"

# works WORDS..: whether gcc can build an empty program so
works() {
  echo 'int main(void) { return 0; }' | gcc -x c "$@" -o build/probe - 2>/dev/null && build/probe
}

gcc -std=c11 -O2 $strict -o build/cards_host $sources $libraries
rm -f build/cards_host_checked
if works $sanitizers; then
  gcc -std=c11 -O1 -g $sanitizers $strict -o build/cards_host_checked $sources $libraries
else
  echo "build.sh: no sanitizers here"
fi
rm -f build/probe
if echo 'int main() {}' | gcc -x c++ -fsyntax-only - 2>/dev/null; then
  printf '%s\n' '#include "cards.h"' 'size_t (*const entry)(const uint8_t *, size_t, uint8_t *, size_t) = cards_run;' \
    'size_t (*const sheets)(const uint8_t *, size_t, uint32_t *, size_t) = cards_levels;' |
    gcc -x c++ -std=c++11 -fsyntax-only -pedantic $strict -
fi
