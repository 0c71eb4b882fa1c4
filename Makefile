# Two commands: `make run` runs the main job, `make test` is the whole test.

.PHONY: run levels test lib host peer fuzz soak guards bench clean

# proves and builds `cards` (minutes the first time, nothing after that) and runs it on case A of document 01
run:
	@tests/build.sh cards
	@build/cards < examples/case-a.script

# proves and builds `levels` and runs it on the sheet that the kit ships with
levels:
	@tests/build.sh levels
	@build/levels < examples/table-6.1.sheet

test:
	@tests/run.sh

# the C entry for firmware: build/libcards.a, declared in include/cards.h
lib:
	@tests/build.sh lib

# the C program over it: build/cards_host
host:
	@tests/build.sh lib host

# the C program that `cards` is measured beside: build/cards_peer
peer:
	@tests/tool.sh gcc
	@mkdir -p build
	@rm -f build/cards_peer
	@gcc -O3 -march=x86-64 -std=c11 -Wall -Wextra -Werror -o build/cards_peer bench/peer.c

# more of the comparisons: make fuzz SEED=7 COUNT=100000
fuzz:
	@tests/fuzz.sh "$$SEED" "$$COUNT"

# a longer look at the built programs, outside the gate: make soak SEED=7
soak:
	@tests/soak.sh $(SEED)

# the longer list of must-fail edits, outside the gate
guards:
	@tests/guards.sh

# the tables of docs/BENCHMARKS.md
bench:
	@bench/calls.sh
	@bench/script.sh
	@bench/sheet.sh

clean:
	rm -rf build crates/*/out reference/target reference/calls/target reference/sheets/target bench/reference/target
