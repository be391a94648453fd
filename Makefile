# Targets that prove, build or run something need the kit's command `rt` and Python 3. `bench`,
# `counts`, `faults`, `soak` and `bindings` also need a C compiler, and `memcheck` needs valgrind.
# README says how long the first ones take.
.PHONY: help demo test prove gate edits page-test claim build install uninstall dist dist-test service workers stress bench faults fuzz soak memcheck limits counts clean

# Prints the targets in groups. A group's name is a line that starts with '##', and a target's
# description comes after its '##'.
help:
	@awk -F ':.*##' '/^## / { printf "\n%s\n", substr($$0, 4) } /^[a-z-]+:.*##/ { printf "  %-16s%s\n", $$1, $$2 }' $(MAKEFILE_LIST)

## Try it

# Draws the example, within a minute from a clean clone.
demo: ## draws examples/first.jsonl
	@scripts/demo.sh

## Test and prove

# Runs every test, every worked case and the runs of the programs on the current sources, without a
# proof. Also runs the tests of the library for C if its current sources were proved on this
# machine.
test: need-rt ## runs every test, without proofs
	@python3 scripts/tests.py

# Proves every crate, using what earlier runs proved, and writes the programs to bin/.
prove: need-rt build ## proves every crate, over earlier runs
	@rt all check

# Proves everything and tries everything: what must not compile, the edits that must be refused, the
# tests and the programs.
gate: need-rt ## proves and tries everything from nothing
	@python3 scripts/gate.py

# Tries the edits that must be refused, of all crates or of those in CRATES.
edits: need-rt ## tries the edits that must be refused (CRATES=..)
	@python3 scripts/edits.py $(CRATES)

# Opens pages in headless Chromium and Firefox, also those of the examples. Says so if a browser is
# missing.
page-test: need-python bin/ttree ## opens pages in headless browsers
	@python3 viewer/page_test.py bin/ttree

# Prints everything that a claim depends on: the contract of the function NAME or the definition
# NAME, and all definitions that it uses.
claim: need-python ## prints a contract and its definitions (NAME=..)
	@python3 scripts/claim.py $(NAME)

## Build

# Proves and builds the programs, and writes them to bin/.
build: bin/tracing_tree bin/tracing_tree_read bin/ttree ## proves and builds the programs

SOURCES = $(shell find crates crates.txt -type f -not -path '*/out/*' -not -path '*/must-fail/*')

bin/tracing_tree: $(SOURCES)
	@scripts/build.sh tracing_tree_cli $@

bin/tracing_tree_read: $(SOURCES)
	@scripts/build.sh tracing_tree_read $@

bin/ttree: $(SOURCES)
	@scripts/build.sh ttree $@

bin/%: $(SOURCES)
	@scripts/build.sh $* $@

# `make install` installs below PREFIX. Packagers also set DESTDIR.
PREFIX ?= /usr/local
install uninstall: export DESTDIR := $(DESTDIR)
install uninstall: export PREFIX := $(PREFIX)

# Installs the programs, man pages, completions and docs, and the library for C if it has been
# built. Starts no proof: if a program is missing or old, it says what to run.
install: ## installs what has been built (PREFIX=.. DESTDIR=..)
	@scripts/install.sh install "$$DESTDIR" "$$PREFIX"

uninstall: ## removes what `make install` installs
	@scripts/install.sh uninstall "$$DESTDIR" "$$PREFIX"

# Writes dist/tracing_tree-VERSION-x86_64-linux.tar.gz, for use without the kit. Starts no proof: if
# something is missing or old, it says what to run.
dist: ## writes an archive of what has been built
	@scripts/dist.sh

# Unpacks the archive in an empty folder and tests it there, with `rt` off the PATH.
dist-test: dist ## tests the archive in an empty folder
	@CC='$(CC)' CXX='$(CXX)' scripts/dist_test.sh

# Proves and runs the example of a service.
service: bin/example_service ## proves and runs the example of a service
	@bin/example_service < crates/example_service/stdin

# Proves and runs the example of several threads.
workers: bin/example_workers ## proves and runs the example of several threads
	@bin/example_workers

## Outside the gate

# Outside the gate. Makes random calls on two to eight threads through the layers for several
# threads, in ten thousand rounds.
stress: bin/check_stress ## runs random calls of several threads
	@timeout 1800 bin/check_stress 10000 20261124

# Times the library's calls, the program on generated inputs, and the reading of drawings. Asserts
# nothing.
bench: need-python need-cc build bin/bench ## times the library and the programs
	@$(CC) -O1 -shared -fPIC -o bin/count.so scripts/count.c -ldl
	@python3 scripts/bench.py

# The worked cases for `faults`: with retracing, with clocks, with messages of two lines, and with a
# fault of the settings and of a call.
DATA = crates/test_cases/data
FAULTY = $(addprefix $(DATA)/,retracing/concurrent_eager.in retracing/deferred_closes.in close_retrace/stranger.in \
	clocks/utc.in clocks/local.in clocks/uptime_higher.in \
	drawing/two_lines_in_close.in drawing/no_lines_two_lines.in lines/settings_wraparound_text.in lines/call_close_without_id.in)
DRAWINGS = $(addprefix $(DATA)/,first/tree.out retracing/concurrent_eager.out retracing/retrace.out)

# Makes each allocation, each read and each write of the programs fail in turn. Checks their output,
# their messages and their status.
faults: need-python need-cc build ## fails each allocation, read and write in turn
	@$(CC) -O1 -shared -fPIC -o bin/refuse.so scripts/refuse.c -ldl
	@python3 scripts/refuse.py bin/tracing_tree bin/refuse.so examples/first.jsonl examples/server.jsonl $(FAULTY)
	@python3 scripts/refuse.py bin/tracing_tree_read bin/refuse.so $(DRAWINGS)
	@python3 scripts/refuse.py bin/ttree bin/refuse.so examples/go-test.jsonl examples/uftrace.json

# How much `fuzz` and `soak` try. Runs with the same seed are the same.
LINES = 1000000
CALLS = 300000
DRAWN = 300000
CHANGED = 100000
SEED = 1
SOAKED = 100000000
SOAKED_CALLS = 100000000

# Outside the gate. Runs random lines, calls and drawings through the programs. A model that was
# written only from the docs says what is right. The model must first agree with the worked cases.
# Then draws random calls with retracing on and looks for each event's ancestors in the drawing, and
# draws changed examples of other tools' output. Each failing input is left below bin/fuzz and can
# be run again.
fuzz: need-python build ## runs random and damaged lines
	@python3 scripts/model.py $(DATA)
	@python3 scripts/fuzz.py --lines $(LINES) --calls $(CALLS) --drawings $(DRAWN) --seed $(SEED) bin/tracing_tree bin/tracing_tree_read
	@python3 scripts/reading_law.py bin/tracing_tree
	@python3 scripts/fuzz_formats.py --inputs $(CHANGED) --seed $(SEED) bin/ttree

# Outside the gate. Makes many calls through the program and many of the library itself. Compares
# the memory and the speed at the start and at the end.
soak: need-python need-cc build bin/bench ## makes 10^8 calls
	@$(CC) -O2 -o bin/soak scripts/soak.c
	@python3 scripts/soak.py bin/tracing_tree --lines bin/soak $(SOAKED)
	@python3 scripts/soak.py bin/bench $(SOAKED_CALLS)

# Outside the gate. Writes the figures of memory again that the gate compares.
counts: need-python need-cc build bin/bench bin/example_service ## writes the figures of memory again
	@$(CC) -O1 -shared -fPIC -o bin/count.so scripts/count.c -ldl
	@python3 scripts/counts.py bin/bench bin/tracing_tree bin/ttree bin/example_service bin/count.so --write

# Outside the gate. Runs the programs under valgrind, on all worked cases and some drawings.
memcheck: need-python need-valgrind build ## runs the programs under valgrind
	@python3 scripts/memcheck.py bin/tracing_tree bin/tracing_tree_read bin/ttree

# Outside the gate. Runs the programs with little memory or stack, with files, disks and pipes that
# end, and with odd arguments. `test` does that too, but not with little memory or stack.
limits: need-python build ## runs the programs with little memory, stack or disk
	@python3 scripts/limits.py bin/tracing_tree bin/tracing_tree_read bin/ttree

# Removes what the targets made: the programs, the logs and the kit's results of checks.
clean: ## removes what the targets made
	@rm -rf bin dist crates/*/out

# Says what to do if a tool is missing, before anything is built.
NEEDS = need-rt need-python need-cc need-valgrind
.PHONY: $(NEEDS)
$(NEEDS): need-%:
	@CC='$(CC)' scripts/need.sh $*

include bindings/bindings.mk
