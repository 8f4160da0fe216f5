# make run       the program replay, compiled without a proof, on the worked day of examples/day
# make programs  the programs replay, resume, write and list, proved and built, in host/target/release/
# make c-host    libkeeper.a and keeper.h for a C host, proved and built, in target/c-host/; 'make built hosted' checks them from C
# make scripts   the test programs on their scripts, proved, built and run
# make test      the gate: every check, ending with the toolchain's verdict
# make sample    the definitions against the second implementation; SEED and COUNT choose the cases
# make compare   the proved code against the second implementation; SEED, TABLES, WRITES, BENCHES, RECORDS, QUESTIONS, SAVES, CALLS and FEEDS choose the cases
# make bench     the time of both over one log
SHELL := /bin/bash
.SHELLFLAGS := -o pipefail -c
SEED ?= 1
COUNT ?= 70
TABLES ?= 100000
WRITES ?= 100000
BENCHES ?= 2000
RECORDS ?= 30000
QUESTIONS ?= 600
SAVES ?= 1000
CALLS ?= 1500
FEEDS ?= 60000
# where the proved archives and programs are put; the Rust packages read both variables
export KEEPER_ARCHIVES := $(CURDIR)/target/archives
export KEEPER_PROGRAMS := $(CURDIR)/target/programs
# and what is compiled without a proof
UNPROVED := $(CURDIR)/target/unproved
# one core for the times, where that can be asked for
PIN := $(shell command -v taskset > /dev/null && echo taskset -c 0)

PROGRAMS := replay_run resume_run write_run list_run
EXPORTS := export_cells export_sizes export_wakes export_states export_tables export_feed export_bench export_saved c_host
SCRIPTS := test_tables test_writer test_records test_pieces

.PHONY: run programs c-host scripts test gate verdict built linked hosts listed second sample compare states feeds replayed hosted bench

DAY := examples/day

run:
	@echo "step 1 of 2: compiling the program; 'make test' proves the same files, 'make programs' builds it proved"
	@tests/unproved $(UNPROVED) replay_run > /dev/null
	@cd host && cargo build --release --offline --quiet
	@mkdir -p target/day
	@echo "step 2 of 2: the log of $(DAY), replayed in pieces of 5 bytes:"
	@KEEPER_PROGRAMS=$(UNPROVED) host/target/release/replay $(DAY)/table.bin $(DAY)/log.bin target/day/replies.bin 5
	@echo "each record of the log, and the reply to it:"
	@examples/show $(DAY)/log.bin target/day/replies.bin
	@cmp target/day/replies.bin $(DAY)/replies.bin && echo "the replies are those of document 01"

# the programs, with their exit statuses. A crate that has not changed since it was proved here is not proved again.
programs:
	@echo "step 1 of 2: proving and building the keeper and the programs, crate by crate"
	@tests/programs $(KEEPER_PROGRAMS) $(PROGRAMS)
	@echo "step 2 of 2: building the hosts of the programs"
	@$(MAKE) --no-print-directory hosts

# the Rust programs around the proved ones, which they look for in KEEPER_PROGRAMS, or beside themselves
hosts:
	@cd host && cargo build --release --offline --quiet
	@cp $(PROGRAMS:%=$(KEEPER_PROGRAMS)/%) host/target/release/

# the calls for a C host: the library, which a C or C++ program is linked with, and its header
c-host:
	@tests/archives $(KEEPER_ARCHIVES) c_host
	@mkdir -p target/c-host
	@cp $(KEEPER_ARCHIVES)/libc_host.a target/c-host/libkeeper.a
	@cp include/keeper.h target/c-host/keeper.h
	@echo "target/c-host/libkeeper.a and target/c-host/keeper.h"

scripts:
	@for t in $(SCRIPTS); do (cd crates/$$t && rt run < stdin) || exit 1; done

# First what takes seconds, then the toolchain's verdict on every crate, with its edits and programs; then what is proved is built, and the
# checks that run it follow, two at a time. The verdict's last line is told again at the end.
test: listed second
	$(MAKE) gate
	$(MAKE) built
	$(MAKE) -j2 --output-sync=target feeds sample states replayed hosted
	@$(MAKE) --no-print-directory verdict

# the toolchain's verdict, and no must-fail edit that could not be applied
gate:
	tests/gate target/gate.txt

verdict:
	@tail -n 1 target/gate.txt

# the proved code as archives and programs, and the Rust packages that are linked with them
built:
	tests/archives $(KEEPER_ARCHIVES) $(EXPORTS)
	tests/programs $(KEEPER_PROGRAMS) $(PROGRAMS)
	$(MAKE) linked hosts

# the second implementation, linked with the archives
linked:
	cd tests/compare && cargo build --release --offline --quiet

# every folder of crates/ stands in crates.txt, and every must-fail edit finds its text
listed:
	@for d in crates/*/; do n=$$(basename "$$d"); grep -Eq "^$$n( staticlib)?:" crates.txt || { echo "crates/$$n is not listed in crates.txt"; exit 1; }; done
	@tests/edits

# the second implementation's own tests
second:
	cd tests/second && cargo test --release --offline --quiet

sample:
	tests/model/check $(SEED) $(COUNT)

# the proved code against the second implementation
compare:
	tests/archives $(KEEPER_ARCHIVES) $(EXPORTS)
	$(MAKE) linked
	$(MAKE) states
	$(MAKE) feeds

# tables, lists for the writer, benches, single records, questions and methods, saved states, the calls of a C host
states:
	tests/compare/target/release/compare tables $(SEED) $(TABLES)
	tests/compare/target/release/compare writer $(SEED) $(WRITES)
	tests/compare/target/release/compare benches $(SEED) $(BENCHES)
	tests/compare/target/release/compare unordered $(SEED) $(BENCHES)
	tests/compare/target/release/compare records $(SEED) $(RECORDS)
	tests/compare/target/release/compare questions $(SEED) $(QUESTIONS)
	tests/compare/target/release/compare saved $(SEED) $(SAVES)
	tests/compare/target/release/compare c_host $(SEED) $(CALLS)

# logs in pieces
feeds:
	tests/compare/target/release/compare feed $(SEED) $(FEEDS)

# the programs on files of every sort; the toolchain's verdict runs the crates replay, resume, write and list over the same libraries
replayed:
	tests/replay/check host/target/release/replay host/target/release/resume statuses
	tests/lists/check host/target/release/write host/target/release/list
	host/target/release/write examples/wiring/list.txt target/wiring.bin
	cmp target/wiring.bin examples/wiring/table.bin
	host/target/release/list examples/wiring/table.bin | cmp - examples/wiring/sorted.txt

# the calls for a C host, from C: the header, the example host, and the header's numbers
hosted:
	tests/c_host/check $(KEEPER_ARCHIVES)/libc_host.a

bench:
	tests/archives $(KEEPER_ARCHIVES) $(EXPORTS)
	$(MAKE) linked
	$(PIN) tests/compare/target/release/compare bench
