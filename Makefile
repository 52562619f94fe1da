# make              proves and builds the library, the examples and program wheel
# make test         tests/run: all tests that are not proofs
# make check        .ci/run: the gate. The proofs from nothing, the edits that the prover must refuse, and make test
# make bench        the library against a plain engine: instructions, time and stack of each call
# make fuzz         tests/fuzz/run: damaged and random input to the library
# make install      header, library and wheeling.pc below PREFIX (default /usr/local), in DESTDIR where that is given
# make clean        removes all that was built, and what rt keeps of its proofs in this copy
VERSION = 0.2.0
PREFIX = /usr/local
DESTDIR =
CC = gcc
CFLAGS = -O2
INSTALL = install

LIBRARY = target/staticlib/libwheeling.a
EXAMPLES = target/examples/host target/examples/day
WHEEL = target/bin/wheel
SOURCES = crates.txt $(shell find crates -name out -prune -o -type f -print)

.PHONY: all test check bench fuzz install clean
.DELETE_ON_ERROR:

all: $(LIBRARY) $(EXAMPLES) $(WHEEL)

# rt proves what has changed only.
$(LIBRARY): $(SOURCES)
	tools/build library

# After the library: both prove the crates below them.
$(WHEEL): $(SOURCES) | $(LIBRARY)
	tools/build wheel

target/examples/%: examples/%.c include/wheeling.h $(LIBRARY)
	@mkdir -p $(@D)
	$(CC) -std=c99 -Wall -Wextra -pedantic $(CFLAGS) $(LDFLAGS) -Iinclude -o $@ $< $(LIBRARY)

test:
	tests/run

check:
	.ci/run

bench: $(LIBRARY)
	bench/run $(LIBRARY)

fuzz:
	tests/fuzz/run

install: $(LIBRARY)
	$(INSTALL) -d '$(DESTDIR)$(PREFIX)/include' '$(DESTDIR)$(PREFIX)/lib/pkgconfig'
	$(INSTALL) -m 644 include/wheeling.h '$(DESTDIR)$(PREFIX)/include'
	$(INSTALL) -m 644 $(LIBRARY) '$(DESTDIR)$(PREFIX)/lib'
	sed -e 's|@PREFIX@|$(PREFIX)|' -e 's|@VERSION@|$(VERSION)|' wheeling.pc.in >'$(DESTDIR)$(PREFIX)/lib/pkgconfig/wheeling.pc'
	chmod 644 '$(DESTDIR)$(PREFIX)/lib/pkgconfig/wheeling.pc'

clean:
	rm -rf target bench/plain/target crates/*/out
