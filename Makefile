# make             the archives, proved and compiled by tools/archive
# make host        target/examples/host of examples/host: two sound files in, the story of their echo out. It needs FFTW in single precision and libsndfile (Debian: libfftw3-dev, libsndfile1-dev).
# make install     headers, pkg-config file and the archive for PROCESSOR (default: this machine's) below PREFIX (default /usr/local)
# make dist        target/dist/trimolaveg-VERSION.tar.gz: programs, archives, headers, examples, papers and licence. It needs no prover; `make install` works in it too.
SHELL := bash
PREFIX ?= /usr/local
PROCESSOR ?= $(shell uname -m)
version := $(shell tools/version)
name := trimolaveg-$(version)
headers := $(wildcard include/*.h)
programs := replay parts check convert record

# In a tree that came from a dist file there are archives and no crates.
ifneq ($(wildcard crates),)
folder := target/archive
proved_from := crates.txt KIT tools/archive tools/modules tools/kit.py $(shell find crates \( -path '*_suite' -o -name out \) -prune -o -type f -print)
else
folder := lib
endif
archive := $(folder)/$(PROCESSOR)/libtrimolaveg.a
processors := x86_64 aarch64 riscv64

.PHONY: all host install dist
all: $(archive)

host: target/examples/host
target/examples/host: $(archive) $(headers) $(wildcard examples/host/*.[ch])
	mkdir -p target/examples
	$(CC) -std=c99 -O2 -Wall -Wextra -Wpedantic -Werror -Iinclude -o $@ examples/host/*.c $(archive) -lfftw3f -lsndfile -lm

install: $(archive)
	install -d $(DESTDIR)$(PREFIX)/include $(DESTDIR)$(PREFIX)/lib/pkgconfig
	install -m 644 $(headers) $(DESTDIR)$(PREFIX)/include
	install -m 644 $(archive) $(DESTDIR)$(PREFIX)/lib
	printf '%s\n' 'prefix=$(PREFIX)' 'includedir=$${prefix}/include' 'libdir=$${prefix}/lib' '' 'Name: trimolaveg' 'Description: Where an echo lives: proved delay decisions of an echo canceller' 'Version: $(version)' 'Cflags: -I$${includedir}' 'Libs: -L$${libdir} -ltrimolaveg' >$(DESTDIR)$(PREFIX)/lib/pkgconfig/trimolaveg.pc

ifneq ($(wildcard crates),)
target/bin/%_main: $(proved_from)
	home=. tool=make; . tools/front; front_fresh $*_main || front_build $*_main
	touch $@

# The proofs are what takes time: the archives of all processors come of one run.
$(processors:%=target/archive/%/libtrimolaveg.a) &: $(proved_from)
	tools/archive all

dist: $(processors:%=target/archive/%/libtrimolaveg.a) $(programs:%=target/bin/%_main)
	rm -rf target/dist/$(name)
	mkdir -p target/dist/$(name)/target/bin target/dist/$(name)/tools
	cp -r $(programs) show draw demo include examples bindings docs Makefile README.md CHANGELOG.md LICENSE NOTICE KIT target/dist/$(name)
	rm -rf target/dist/$(name)/bindings/rust/target
	cp -r tools/version tools/front tools/all tools/list tools/desk target/dist/$(name)/tools
	cp $(programs:%=target/bin/%_main) target/dist/$(name)/target/bin
	for processor in $(processors); do install -D -m 644 target/archive/$$processor/libtrimolaveg.a target/dist/$(name)/lib/$$processor/libtrimolaveg.a; done
	tar -C target/dist --sort=name --owner=0 --group=0 --numeric-owner -czf target/dist/$(name).tar.gz $(name)
	@echo target/dist/$(name).tar.gz
endif
