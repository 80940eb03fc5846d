# make            proves every crate that the program uses, side by side, and builds it as build/dmixlab
#                 (-jN: at most N proofs at once; else as many as there are processors and memory holds)
# make test       every test and every case, without a proof (JOBS=N: at most N crates at once)
# make proof      the gate: every proof from nothing, every test, every edit that must be refused
# make tools-test the tests of tools/, maintenance/ and faults/, also with the real rt on two small crates, and the checks of the documents
# make ci         the tests of tools/, maintenance/ and faults/ and the checks of the documents, and then the gate
# make library    proves the crates of the static library for C, and builds it as build/libdmix_c.a
# make check-c    builds that library, and runs the tests of c/ and rust/ over it (SECONDS=N: tries threads against each other for so long;
#                 CONTEND=N: 16 clients write at the same time for so long; BACKEND=rattle: built by Rattle's own compiler)
# make docs       writes build/DEFINITIONS.md: the words of all contracts, from the comments above their definitions
# make install    PREFIX=/usr/local: program, manual page, completion, demo; DESTDIR is put before it
# make clean      removes what was built

PREFIX = /usr/local
PYTHON = python3
JOBS =

.PHONY: build build-alone library library-alone prove test tools-test proof ci check-c docs install clean

# build/rules.mk has a rule for each crate, by crates.txt. All that are ready are begun, and each proof waits for its turn among the lanes
target = build/dmixlab
letters = $(filter-out - --%,$(firstword -$(MAKEFLAGS)))
rules = MAKEFLAGS= $(MAKE) $(letters) --no-print-directory -f build/rules.mk $(target)
given = $(filter -j%,$(MAKEFLAGS))
lanes = $(or $(filter-out -j,$(given:-j%=%)),$(shell $(PYTHON) tools/machine.py))
# another make in this folder waits, and then finds what this one proved
alone = mkdir -p build && exec 9>build/lock && { flock -n 9 || { echo "waiting for another make in $(CURDIR)"; flock 9; }; } \
	  && exec $(MAKE) --no-print-directory

build:
	+@$(alone) build-alone

build-alone: prove
	@mv build/begun build/built && echo "$(CURDIR)/build/dmixlab is proved and built"

library:
	+@$(alone) library-alone target=build/libdmix_c.a

library-alone: prove
	@echo "$(CURDIR)/build/libdmix_c.a is proved and built"

prove:
	+@$(PYTHON) maintenance/build_rules.py
	@rm -rf build/count build/running build/waiting build/refused && mkdir build/count build/running build/waiting
	+@LANES=$(lanes) TOTAL=$$($(rules) --dry-run | grep -c '^maintenance/prove_crate.sh'); export LANES TOTAL MAKEFLAGS=; exec $(MAKE) $(letters) \
	  --silent -j --no-print-directory -f build/rules.mk $(target)

test:
	@$(PYTHON) maintenance/run_tests.py $(if $(JOBS),--jobs $(JOBS))

tools-test:
	@maintenance/check_all.sh
	@$(PYTHON) maintenance/tests/with_real_rt.py

proof:
	@RT_JOBS=$${RT_JOBS-$$($(PYTHON) tools/machine.py)} MIMALLOC_PURGE_DELAY=$${MIMALLOC_PURGE_DELAY--1} rt ci

ci:
	@bash .ci/run

check-c: library
	@maintenance/check_c.sh $(if $(SECONDS),--seconds $(SECONDS)) $(if $(CONTEND),--contend $(CONTEND)) $(if $(BACKEND),--backend $(BACKEND))

docs:
	@$(PYTHON) maintenance/definitions.py && echo "$(CURDIR)/build/DEFINITIONS.md is written"

install:
	@maintenance/install.sh "$(DESTDIR)" "$(PREFIX)"

clean:
	rm -rf build crates/dmixlab/out/rlib
