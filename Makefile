# The project's commands; `make` alone lists them. `make test` is exactly the gate.
SHELL := /bin/bash
PREFIX ?= /usr/local
DEST := $(DESTDIR)$(PREFIX)
SEED ?= 1
COUNT ?= 20000
KIT := set -euo pipefail; . tools/kit.sh;
ARCHIVE := crates/panel/out/libpanel.a
PANEL ?= $(ARCHIVE)

.PHONY: help test run desk lib install demo valves tries second bench stack peer peer-needs clean
.DELETE_ON_ERROR:

help:
	@echo 'make test                     the gate: every proof from nothing, then the tests'
	@echo 'make run                      prove and build the journal, and run it on an example'
	@echo 'make desk                     prove and build the desk, and run the night of the March case, typed by a shift leader'
	@echo 'make lib                      prove the C boundary and write $(ARCHIVE)'
	@echo 'make install PREFIX=DIR       put the header, the archive and a pkg-config file in place'
	@echo 'make demo                     the trend screen of a night shift, drawn to target/trend.svg'
	@echo 'make valves                   valves with several positions: what limit switches rule out, and by which rule'
	@echo 'make tries                    readings tried in nested steps and taken back, and what would stand'
	@echo 'make second SEED=n COUNT=n    the independent second program on random boards'
	@echo 'make bench                    the library against plain C'
	@echo 'make stack                    bytes of native stack that each call takes at most, measured'
	@echo 'make peer                     the library against MiniSat, where that is installed; with PANEL=FILE the archive FILE in its place'
	@echo 'make clean                    remove what was built, with the proofs that are kept: target/ and the out/ of each crate'

test:
	@.ci/run

run:
	@set -o pipefail; examples/hex examples/cases/printed/input.hex | ./run journal

desk:
	@./run desk <examples/desk/march.txt

lib: $(ARCHIVE)
	@echo 'the archive is $(ARCHIVE)'

# Made from the crates that panel reaches. Folders count too, so that a file that is gone is noticed.
$(ARCHIVE): crates.txt $(shell . tools/kit.sh; find $$(reached panel | sed 's,^,crates/,') -mindepth 1 \( -name out -o -name must-fail \) -prune -o -print)
	@$(KIT) prove lib panel

install: $(ARCHIVE)
	install -d $(DEST)/include $(DEST)/lib/pkgconfig
	install -m 644 include/tupahineka.h $(DEST)/include/
	install -m 644 $(ARCHIVE) $(DEST)/lib/
	printf '%s\n' 'prefix=$(PREFIX)' 'Name: tupahineka' 'Description: A proved truth-maintenance board' 'Version: 7.0' \
	    'Cflags: -I$${prefix}/include' 'Libs: -L$${prefix}/lib -lpanel' >$(DEST)/lib/pkgconfig/tupahineka.pc

target/trend: examples/trend.c examples/chart.c examples/trend.h
target/valves: examples/valves.c examples/checks.h
target/tries: examples/tries.c examples/checks.h
target/second: $(wildcard second/*.c second/*.h)
target/bench: $(filter-out bench/stack.c,$(wildcard bench/*.c)) $(wildcard bench/*.h)
target/stack: bench/stack.c bench/boards.c bench/plain.c bench/dimacs.c $(wildcard bench/*.h)
target/trend target/valves target/tries target/second target/bench target/stack: include/tupahineka.h $(ARCHIVE)
	@$(KIT) build_c $@ $(filter %.c,$^)

demo: target/trend
	@$< target/trend.svg && echo 'the picture is target/trend.svg'

valves: target/valves
	@$<

tries: target/tries
	@$<

second: target/second
	@$< $(SEED) $(COUNT)

bench: target/bench
	@$<

stack: target/stack
	@$<

# What is missing is said before anything is proved.
peer-needs:
	@$(KIT) need_peer

peer: peer-needs $(PANEL)
	@$(KIT) build_peer target/peer $(PANEL) bench/peer.cc bench/boards.c bench/plain.c bench/dimacs.c; target/peer

clean:
	rm -rf target crates/*/out
