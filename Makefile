# The C side of Vlomdar: the archive, the example, the checks and the installation. The proofs and programs are `rt ci`'s (see README.md).
#
#   make                   target/staticlib/libvlomdar.a (proves the library first) and build/exchange
#   make check             header as C and C++, example against its expected output, entries against document 01, an installation
#   make against           a second implementation against the archive and the night report (tests/README.md), under valgrind, and on damaged inputs
#   make bench             times beside plain C++, NTL, FLINT and a twin in C++, with pictures (docs/PERFORMANCE.md; fails only on a wrong answer)
#   make figures           the same, and this run's results put into bench/results.csv, docs/performance*.svg and the tables of the page
#   make install PREFIX=.. header, archive, vlomdar.pc, the program night_report and man pages; DESTDIR is put before PREFIX
#   make clean             removes build/

PREFIX ?= /usr/local
DESTDIR ?=
CC ?= cc
CXX ?= c++
RT ?= rt
CFLAGS ?= -O2 -g
CXXFLAGS ?= -O2 -g
WARN = -Wall -Wextra -Wpedantic -Werror
VERSION = 1.0.0

# The archive and the programs are for x86-64. On another processor the tests are compiled for x86-64 too, and an emulator runs them: the same
# answers, by Debian's packages gcc-x86-64-linux-gnu, qemu-user, cargo, rustc and libstd-rust-dev:amd64. Times and valgrind are for x86-64 alone.
ifeq ($(shell uname -m),x86_64)
EMULATOR =
CARGO = cargo
MEMORY = valgrind --quiet --error-exitcode=9
else
EMULATOR = qemu-x86_64
CC = x86_64-linux-gnu-gcc
RUST_TARGET = x86_64-unknown-linux-gnu
CARGO = RUSTC=/usr/bin/rustc CARGO_TARGET_X86_64_UNKNOWN_LINUX_GNU_LINKER=$(CC) /usr/bin/cargo
MEMORY = $(EMULATOR)
endif

ARCHIVE = target/staticlib/libvlomdar.a
REPORT = target/bin/night_report
SOURCES = crates.txt $(shell find crates -name out -prune -o \( -name '*.rt' -o -name '*.antt' \) -print)

.PHONY: all check check-header check-example check-entries check-install against against-itself against-calls against-memory against-damage bench-packages bench figures install clean

all: $(ARCHIVE) build/exchange

# `rt lib` proves what the archive rests on first, and keeps what it proved: so the two goals below take turns.
$(ARCHIVE): $(SOURCES)
	cd crates/vlomdar_c && $(RT) lib --cpu x86-64
	install -D -m 644 crates/vlomdar_c/out/libvlomdar_c.a $@

$(REPORT): $(SOURCES) | $(ARCHIVE)
	cd crates/night_report && $(RT) run --cpu x86-64 < stdin > /dev/null
	install -D -m 755 crates/night_report/out/night_report $@

build:
	mkdir -p build

build/exchange: examples/exchange.c include/vlomdar.h $(ARCHIVE) | build
	$(CC) -std=c99 $(WARN) $(CFLAGS) -Iinclude -o $@ examples/exchange.c $(ARCHIVE)

build/entries: tests/c/entries.c include/vlomdar.h $(ARCHIVE) | build
	$(CC) -std=c11 $(WARN) $(CFLAGS) -Iinclude -o $@ tests/c/entries.c $(ARCHIVE) -lpthread

# The example in the header's opening comment, as code.
build/header_example.h: include/vlomdar.h | build
	sed -n '/^ \* Example:/,/^ \* Link/s/^ \*     //p' include/vlomdar.h > $@
	test -s $@

check: check-header check-example check-entries check-install
	@echo "C: all checks passed"

check-header: build/header_example.h
	$(CC) -std=c99 $(WARN) -Iinclude -Ibuild -fsyntax-only tests/c/header.c
	$(CXX) -x c++ -std=c++11 $(WARN) -Iinclude -Ibuild -fsyntax-only tests/c/header.c

check-example: build/exchange
	$(EMULATOR) build/exchange > build/exchange.out
	diff -u examples/exchange.expected build/exchange.out

check-entries: build/entries
	$(EMULATOR) build/entries

# Installs into build/root and builds the example from there, by pkg-config alone.
check-install: $(ARCHIVE) $(REPORT) | build
	rm -rf build/root
	$(MAKE) --no-print-directory install PREFIX=$(CURDIR)/build/root DESTDIR=
	$(CC) -std=c99 $(WARN) -o build/exchange-installed examples/exchange.c $$(PKG_CONFIG_PATH=build/root/lib/pkgconfig pkg-config --cflags --libs vlomdar)
	$(EMULATOR) build/exchange-installed | diff -u examples/exchange.expected -
	$(EMULATOR) build/root/bin/night_report < crates/night_report/stdin | diff -u crates/night_report/stdout -

# Another way to the same answers: thousands of random calls, every byte of every buffer compared.
AGAINST = VLOMDAR_REPORT=$(CURDIR)/build/night_report

against: against-itself against-calls against-memory against-damage
	@echo "second implementation: all checks passed"

AGAINST_PROGRAM = tests/target/$(if $(RUST_TARGET),$(RUST_TARGET)/)release/against

$(AGAINST_PROGRAM): $(ARCHIVE) $(shell find tests/second tests/against -name '*.rs' -o -name Cargo.toml)
	cd tests && VLOMDAR_LIB=$(CURDIR)/target/staticlib $(CARGO) build --offline --quiet --release -p against $(if $(RUST_TARGET),--target $(RUST_TARGET))
	touch $@

# The night report as a program that this machine can start.
build/night_report: $(REPORT) | build
	printf '#!/bin/sh\nexec %s\n' '$(EMULATOR) $(CURDIR)/$(REPORT)' > $@
	chmod +x $@

against-itself:
	cd tests && $(CARGO) test --offline --quiet -p second

against-calls: $(AGAINST_PROGRAM) build/night_report
	$(AGAINST) $(EMULATOR) $(AGAINST_PROGRAM)

against-memory: $(AGAINST_PROGRAM) build/night_report
	$(AGAINST) $(MEMORY) $(AGAINST_PROGRAM) short

against-damage: $(AGAINST_PROGRAM) build/night_report
	$(AGAINST) $(EMULATOR) $(AGAINST_PROGRAM) fuzz seconds 20

# The benchmark. The peers and the twin are compiled for the processor that the archive is for, any x86-64.
BENCH = build/bench/bench
BENCHFLAGS ?= -O3
BENCH_UPDATE = target/staticlib/libbench_update.a
BENCH_OBJECTS = $(patsubst %.cpp,build/%.o,$(wildcard bench/*.cpp bench/plain/*.cpp bench/twin/*.cpp))

bench-packages:
	@test -z "$(EMULATOR)" || { echo "The archive is for x86-64: on another processor there is nothing to time." >&2; exit 1; }
	@sh bench/packages.sh $(CXX)

# The running sketch has no C entry; this archive makes it callable for the benchmark alone.
$(BENCH_UPDATE): $(SOURCES) | $(ARCHIVE)
	cd crates/bench_update_c && $(RT) lib --cpu x86-64
	install -D -m 644 crates/bench_update_c/out/libbench_update_c.a $@

$(BENCH_OBJECTS): build/%.o: %.cpp | bench-packages
	mkdir -p $(@D)
	$(CXX) -std=c++17 $(WARN) $(BENCHFLAGS) -MMD -MP -Iinclude -c -o $@ $<

-include $(BENCH_OBJECTS:.o=.d)

$(BENCH): $(BENCH_OBJECTS) $(ARCHIVE) $(BENCH_UPDATE)
	$(CXX) -o $@ $^ -lntl -lflint -lgmp -lpthread

bench: $(BENCH)
	$(BENCH) --csv build/bench/results.csv
	python3 bench/plot.py build/bench/results.csv build/bench/performance.svg build/bench/performance-short.svg

figures: bench
	cp build/bench/results.csv bench/results.csv
	cp build/bench/performance.svg build/bench/performance-short.svg docs/
	python3 -B bench/page.py bench/results.csv docs/PERFORMANCE.md

install: $(ARCHIVE) $(REPORT)
	install -d $(DESTDIR)$(PREFIX)/bin $(DESTDIR)$(PREFIX)/include $(DESTDIR)$(PREFIX)/lib/pkgconfig $(DESTDIR)$(PREFIX)/share/man/man1 $(DESTDIR)$(PREFIX)/share/man/man3
	install -m 755 $(REPORT) $(DESTDIR)$(PREFIX)/bin/
	install -m 644 include/vlomdar.h $(DESTDIR)$(PREFIX)/include/
	install -m 644 $(ARCHIVE) $(DESTDIR)$(PREFIX)/lib/
	sed -e 's|@PREFIX@|$(PREFIX)|' -e 's|@VERSION@|$(VERSION)|' vlomdar.pc.in > $(DESTDIR)$(PREFIX)/lib/pkgconfig/vlomdar.pc
	chmod 644 $(DESTDIR)$(PREFIX)/lib/pkgconfig/vlomdar.pc
	install -m 644 man/vlomdar.3 $(DESTDIR)$(PREFIX)/share/man/man3/
	install -m 644 man/night_report.1 $(DESTDIR)$(PREFIX)/share/man/man1/

clean:
	rm -rf build
