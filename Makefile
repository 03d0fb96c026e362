# make run: proves labelbench and runs it on the samples, or on the file LABELS=path.  make test: all that must pass.
# make lib: the archive for C and its header, in build/appleounce.
# make bench: tests/bench with twenty million scans, seven million records and six million calls of the shelf list from a
# seed of its own, or from SEED=n.
# make speed: measures, and judges nothing.
.PHONY: run lib test bench speed
SHELL = bash
.SHELLFLAGS = -o pipefail -c

run:
	@tests/kit
	@tools/judge "$${LABELS:-samples/labels.txt}"

# Proved and compiled again where a source is newer, as most tests ask for it.
lib: build/appleounce/libappleounce.a build/appleounce/appleounce.h
	@tests/kit
	@echo "build/appleounce has libappleounce.a and appleounce.h"

build/appleounce/libappleounce.a: crates.txt tools/archive $(shell find crates -name out -prune -o \( -name '*.rt' -o -name '*.antt' \) -print 2> /dev/null)
	@mkdir -p build/appleounce
	@tools/archive $@ terminal terminal_values terminal_desk terminal_host shelf_list

build/appleounce/appleounce.h: include/appleounce.h
	@mkdir -p build/appleounce
	@cp $< $@

test:
	@tests/run

bench:
	@tests/kit
	@tools/prove labelbench tally try_tally extract
	@seed=$${SEED:-$$(od -A n -N 4 -t u4 /dev/urandom | tr -d ' ')} && \
		echo "seed $$seed: make bench SEED=$$seed repeats this run" && tests/bench/run "$$seed" 20

speed:
	@tests/kit
	@tests/needs
	@tools/prove labelbench tally
	@bench/speed/run
