# make                      builds the static library for a card's host software, build/libsdsl.a, and the programs, build/NAME
# make test                 proves every crate, then runs every test; the last line is 'N passed, 0 failed'
# make first                builds README's example in C, build/first (examples/first.c)
# make pair                 builds the example host, build/pair, which trains two cards in memory (examples/pair)
# make bench                measures every operation against plain C and what else there is (docs/PERFORMANCE.md)
# make house                draws crates.txt, docs/house.svg; needs graphviz
# make install PREFIX=..    header, library, sdsl.pc, the programs as sdsl-NAME with an exit status, man pages; DESTDIR is respected
# make uninstall PREFIX=..  takes the same files away again
# make clean                removes what was built
# make help                 prints this
# A program in build/ is run as './run NAME ARGS..', on any processor.
.PHONY: all test first pair bench house install uninstall clean help
.NOTPARALLEL: # one run of rt after the other; rt itself uses more than one processor

VERSION = 0.6.1
PROGRAMS = lister messages replay sorter
PREFIX = /usr/local
bindir = $(PREFIX)/bin
libexecdir = $(PREFIX)/libexec
includedir = $(PREFIX)/include
libdir = $(PREFIX)/lib
mandir = $(PREFIX)/share/man

# The library is x86-64 on every machine. Elsewhere its callers are compiled with Debian's cross compiler; tests/tools does the same.
ifeq ($(shell uname -m),x86_64)
SDSL_CC ?= gcc
else
SDSL_CC ?= x86_64-linux-gnu-gcc -static
endif
CFLAGS = -O2
STRICT = -std=c11 -Wall -Wextra -Werror

SOURCES = crates.txt tools/build tools/turns $(shell find crates -name out -prune -o \( -name '*.rt' -o -name '*.antt' \) -print)
BUILT = build/libsdsl.a $(PROGRAMS:%=build/%)

all: $(BUILT)

$(BUILT) &: $(SOURCES)
	@sh tools/build $(PROGRAMS)

first: build/first

build/first: examples/first.c include/sdsl.h build/libsdsl.a
	$(SDSL_CC) $(STRICT) $(CFLAGS) -I include -o $@ $< build/libsdsl.a

PAIR = examples/pair

pair: build/pair

build/pair: $(wildcard $(PAIR)/*.c $(PAIR)/*.h) include/sdsl.h build/libsdsl.a
	$(SDSL_CC) $(STRICT) $(CFLAGS) -I include -o $@ $(filter %.c,$^) build/libsdsl.a

# Crate checktrial, for tests and the benchmark: check bits and check sequence alone, which sdsl.h does not have.
build/libchecktrial.a: $(SOURCES)
	@mkdir -p build
	@cd crates/checktrial && sh ../../tools/turns rt lib --cpu x86-64 > ../../build/checktrial.log 2>&1 || { cat ../../build/checktrial.log >&2; exit 1; }
	@cp crates/checktrial/out/libchecktrial.a $@

bench: build/bench
	bash bench/run

build/bench: $(wildcard bench/*.c bench/*.h bench/*.cpp bench/*.S) bench/compile include/sdsl.h tests/second/reference.c tests/second/harness.c build/libsdsl.a build/libchecktrial.a
	bash bench/compile

test:
	@sh tools/toolchain
	bash tests/run

house:
	@command -v dot > /dev/null || { echo "dot is missing: install graphviz" >&2; exit 1; }
	python3 tools/house.py crates.txt | dot -Tsvg -o docs/house.svg

INSTALLED = $(includedir)/sdsl.h $(libdir)/libsdsl.a $(libdir)/pkgconfig/sdsl.pc $(mandir)/man3/sdsl.3 \
	$(PROGRAMS:%=$(bindir)/sdsl-%) $(PROGRAMS:%=$(libexecdir)/sdsl/%) $(PROGRAMS:%=$(mandir)/man1/sdsl-%.1)

install: all
	install -d $(addprefix $(DESTDIR),$(sort $(dir $(INSTALLED))))
	install -m 644 include/sdsl.h $(DESTDIR)$(includedir)/
	install -m 644 build/libsdsl.a $(DESTDIR)$(libdir)/
	sed -e 's|@VERSION@|$(VERSION)|' -e 's|@PREFIX@|$(PREFIX)|' -e 's|@INCLUDEDIR@|$(includedir:$(PREFIX)/%=$${prefix}/%)|' \
		-e 's|@LIBDIR@|$(libdir:$(PREFIX)/%=$${prefix}/%)|' sdsl.pc.in > $(DESTDIR)$(libdir)/pkgconfig/sdsl.pc
	chmod 644 $(DESTDIR)$(libdir)/pkgconfig/sdsl.pc
	install -m 644 man/sdsl.3 $(DESTDIR)$(mandir)/man3/
	for p in $(PROGRAMS); do \
		install -m 755 build/$$p $(DESTDIR)$(libexecdir)/sdsl/ && \
		sed -e "s|@NAME@|$$p|" -e "s|@PROGRAM@|$(libexecdir)/sdsl/$$p|" tools/wrapper.in > $(DESTDIR)$(bindir)/sdsl-$$p && \
		chmod 755 $(DESTDIR)$(bindir)/sdsl-$$p && \
		install -m 644 man/sdsl-$$p.1 $(DESTDIR)$(mandir)/man1/ || exit 1; \
	done

uninstall:
	rm -f $(addprefix $(DESTDIR),$(INSTALLED))
	@rmdir $(DESTDIR)$(libexecdir)/sdsl 2> /dev/null || true

clean:
	rm -rf build crates/*/out

help:
	@sed -n 's/^# \(make .*\)/\1/p' Makefile
