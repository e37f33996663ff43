# make            builds the proved program, bin/cdb
# make try        runs the program unproved, in 3 minutes: makes a small database, bin/try.cdb, and queries it
# make quick      runs the tests that need no proof, on what is compiled without one, in 5 to 8 minutes
# make demo       builds it, and shows it at work on a small alias map
# make test       the gate: builds, proves the program and its libraries from nothing, tries wrong bodies and runs every test
# make test TESTS=proved  proves the crates of tests too, as before a release
# make wrong      tries every wrong body, where the gate tries those of a list
# make tests BIN=bin/cdb  runs all tests that need no proof on a program that is built
# make clib       builds the C library, bin/libcdb.so.1 and bin/libcdb.a (needs a C compiler)
# make dist       makes the tarball of the sources that are committed, dist/pezundrix-VERSION.tar.gz, and if they are
#                 built that of the proved objects, which installs without the toolchain (release/Makefile)
# make deb        builds it and the C library, and makes the three Debian packages in dist/
# make release    builds both of a commit on which make test TESTS=proved passed, and makes all of these: at first it writes
#                 release/SHA256SUMS, which is to be committed
# make install    installs cdb, its manual pages, completion, guide and license below $(DESTDIR)$(PREFIX)
# make install-clib  installs the C library, its header and its manual page there
# make uninstall  removes what these two installed, unless it is another's by now
# make interop    builds it, and compares it with the cdb programs that are installed
# make bench      times it beside tinycdb and freecdb, if they are installed
# make clean      removes what was built, and the proofs that were kept
# make help       shows these lines

PREFIX ?= /usr/local
LIBDIR ?= $(PREFIX)/lib
DESTDIR ?=
RT ?= rt
PYTHON ?= python3
BIN ?= bin/cdb
# The folder of what is built.
OUT ?= bin
# Tests, wrong bodies and documents have no part in the program.
SOURCES := $(shell find crates \( -name out -o -name tests -o -name tests.rt \) -prune -o \
	-type f \( -name '*.rt' -o -name '*.antt' \) -print) crates.txt

# The toolchain's own C, over malloc, by which the maker gets memory.
KIT = $(dir $(shell $(RT) doc 2> /dev/null))
HEAP = $(KIT)c/liblibc_c.a $(KIT)c/libos_c.a


.PHONY: help all try quick demo test wrong tests heap dist deb release install interop bench clean

all: $(OUT)/cdb

include clib/build.mk
include tools/install.mk

help:
	@sed -n '1,/^$$/s/^# //p' Makefile

$(OUT)/cdb: $(SOURCES)
	@RT='$(RT)' CC='$(CC)' $(PYTHON) tools/build.py crates/cdb $(OUT)/cdb

try:
	@RT='$(RT)' sh demo/try.sh

quick:
	@RT='$(RT)' $(PYTHON) tests/quick.py

demo:
	@echo 'The demo: builds cdb unless it is there, then shows it at work.'
	@$(MAKE) -s $(OUT)/cdb
	@sh demo/run.sh $(OUT)/cdb

test:
	@RT='$(RT)' CC='$(CC)' CXX='$(CXX)' TESTS='$(TESTS)' $(PYTHON) tools/gate.py

wrong:
	@RT='$(RT)' $(PYTHON) tools/wrong.py --all

tests:
	@test -x '$(BIN)' || { echo '$(BIN) is not built: run make first'; exit 1; }
	@RT='$(RT)' CC='$(CC)' CXX='$(CXX)' $(PYTHON) tests/run.py '$(BIN)'

$(OUT)/libcdb_c.a: $(SOURCES)
	@RT='$(RT)' $(PYTHON) tools/build.py crates/cdb_c $@

# Whether the toolchain has its C.
heap:
	@for it in $(HEAP); do test -f "$$it" || { \
		echo 'The C library cannot be linked: the Rattle toolchain is not there: no command $(RT)'; exit 1; }; done

# Objects are of a release only if they are of the sources that are committed: those that make and make clib left.
dist:
	@$(PYTHON) tools/package.py dist dist
	@if $(MAKE) -q $(OUT)/cdb $(OUT)/libcdb_c.a > /dev/null 2>&1 && git diff --quiet HEAD -- crates crates.txt VERSION; then \
		RT='$(RT)' $(PYTHON) tools/release.py $(OUT)/cdb.o $(OUT)/libcdb_c.a dist; \
	else \
		echo 'No tarball of the objects: they are not built of what is committed; make and make clib build them'; \
	fi

install: install-program

deb: $(OUT)/cdb clib
	@$(PYTHON) tools/package.py deb $(OUT)/cdb dist
	@$(PYTHON) tools/package.py clib $(OUT) dist

# The tarballs have the sums that are committed, so they are made once those are the objects'.
release:
	@$(PYTHON) tools/publish.py ready
	@$(MAKE) -s $(OUT)/cdb clib
	@RT='$(RT)' $(PYTHON) tools/publish.py sums $(OUT)/cdb.o $(OUT)/libcdb_c.a
	@if git diff --quiet HEAD -- release/SHA256SUMS; then $(MAKE) -s dist deb; else \
		echo "release/SHA256SUMS has the sums of $$(cat VERSION) now: commit it, and run make release again"; fi

interop: $(OUT)/cdb
	$(PYTHON) tests/interop/run.py $(OUT)/cdb
	@if command -v $(firstword $(CC)) > /dev/null; then \
		$(MAKE) -s $(OUT)/answers $(OUT)/makes && $(PYTHON) tests/clib/interop.py $(OUT)/answers $(OUT); \
	fi

bench: $(OUT)/cdb
	$(PYTHON) bench/run.py --cdb $(OUT)/cdb
	$(PYTHON) bench/jobs.py --cdb $(OUT)/cdb
	$(PYTHON) bench/goals.py --cdb $(OUT)/cdb
	$(PYTHON) bench/growth.py --cdb $(OUT)/cdb
	$(PYTHON) bench/instructions.py --cdb $(OUT)/cdb
	$(PYTHON) bench/stores.py
	$(PYTHON) bench/makers.py
	$(PYTHON) bench/readers.py
	@if command -v $(firstword $(CC)) > /dev/null; then \
		$(MAKE) -s clib && $(PYTHON) bench/clib.py $(OUT); \
	fi

clean:
	rm -rf bin dist crates/*/out
