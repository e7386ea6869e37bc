# The archive for C programs, and what is run against it.
#
#   make all           proves the library and the programs, and puts
#                      build/liblensember.a, build/replay, build/map,
#                      build/paint, build/import and build/export together
#   make test          the one test command: proofs, then the host tests
#   make host-test     the host tests alone, those that tests/programs.txt lists
#   make NAME-test     one of these alone, by its name there
#   make list-tests    their names, for ./test
#   make long-test     random series only, COUNT calls of them (20,000,000), from
#                      another SEED each time
#   make php-test      the library beside PHP's own allocator; installs Debian's
#                      libphp8.2-embed
#   make fuzz          libFuzzer over all calls for FUZZ_SECONDS (300), from the
#                      seeds in fuzz/; installs Debian's clang. What it finds is
#                      put into build/, and build/seeds FILE runs it again
#   make install       headers, archive, pkg-config and CMake files, programs and
#                      man pages, below PREFIX (/usr/local); DESTDIR is put
#                      before it
#   make uninstall     removes what install put there
#   make bench         the record check, then the other calls, against a plain OR
#                      over the same records; GATE=1.5 makes it fail when the
#                      check is above that ratio; then replays, against a plain
#                      pool, malloc, and PHP's allocator where it is installed;
#                      then import and export, against a plain parser and printer
#   make run           replays examples/sample.log, the sample of RULES 12.3
#   make map           replays examples/map.log and draws the pool after it
#   make picture       the same as an SVG picture, build/pagemap.svg
#   make import        imports examples/sample.txt, the text of RULES 12.7, and
#                      replays it
#   make first         builds and runs examples/first.c
#   make editor        builds and runs examples/editor.c
#   make clean         removes build/
#
# LIB=FILE on the command line takes another archive, PROGRAM=FILE another
# replay program.

# CC ?= gcc would not do: make has a CC of its own from the start.
ifeq ($(origin CC),default)
CC = gcc
endif
CFLAGS ?= -O2 -Wall -Wextra -Werror
LIB ?= build/liblensember.a
PROGRAM ?= build/replay
PREFIX ?= /usr/local
DESTDIR ?=
VERSION = $(shell sed -n 's/^.define LENSEMBER_VERSION "\(.*\)"$$/\1/p' include/lensember.h)

# What the sources need, whatever CFLAGS says.
override CFLAGS += -std=c99 -pedantic
INCLUDES = -Iinclude -Itests/model -Itests/inputs -Itests/harness -Ibench
HEADERS = $(wildcard include/*.h tests/*/*.h bench/*.h)

# The library is proved again when any source or proof of it has changed. What rt
# makes lies in the crates' folders out/.
PROVED = crates.txt \
	$(shell find crates -name out -prune -o \( -name '*.rt' -o -name '*.antt' \) -print)

all: build/proved $(LIB) $(PROGRAM) build/map build/paint build/import build/export

# What the prover says goes to a file, and to the terminal where it fails. rt runs
# once at a time: whoever comes next waits.
prove = @mkdir -p build; echo '$@ by rt: see build/$(notdir $@).log' >&2; \
	flock build/turn sh -c '$(1)' >build/$(notdir $@).log 2>&1 || \
	{ cat build/$(notdir $@).log; exit 1; }

# Every crate first, so that crates which do not wait for each other are proved
# side by side: what is behind it then finds its crates proved.
build/proved: $(PROVED)
	$(call prove,rt all check)
	touch $@

build/liblensember.a: $(PROVED)
	$(call prove,cd crates/lensember_c && rt lib)
	cp crates/lensember_c/out/liblensember_c.a $@

# The programs are called by what they do, their crates by what they are.
build/replay: CRATE = replayer
build/map: CRATE = mapper
build/paint: CRATE = painter
build/import: CRATE = importer
build/export: CRATE = exporter

# rt builds a program to run it: it is given its crate's sample, and has to print
# what belongs to that.
build/replay build/map build/paint build/import build/export: $(PROVED)
	$(call prove,cd crates/$(CRATE) && rt run <stdin >../../$@.printed && cmp ../../$@.printed stdout)
	cp crates/$(CRATE)/out/$(CRATE) $@

build/%.o: %.c $(HEADERS) Makefile
	@mkdir -p $(@D)
	$(CC) $(CFLAGS) $(INCLUDES) -c $< -o $@

# The yardstick. Its loops start on cache lines: otherwise the same code takes
# up to twice as long, depending on where the linker happens to put it.
build/bench/or.o: bench/or.c $(HEADERS) Makefile
	@mkdir -p $(@D)
	$(CC) $(CFLAGS) -O3 -falign-functions=64 -falign-loops=64 $(INCLUDES) -c $< -o $@

build/bench/plain.o build/bench/scribe.o: build/%.o: %.c $(HEADERS) Makefile
	@mkdir -p $(@D)
	$(CC) $(CFLAGS) -O3 $(INCLUDES) -c $< -o $@

# PHP's allocator is measured too where its library is installed (./setup php).
PHP_LIB := $(wildcard /usr/lib/libphp8.2.so)

build/bench/others.o: bench/others.c $(HEADERS) Makefile
	@mkdir -p $(@D)
	$(CC) $(CFLAGS) $(if $(PHP_LIB),-DWITH_PHP) $(INCLUDES) -c $< -o $@

# What the test programs are made of, beside their own file: of this archive
# the linker takes what a program needs. The model is compiled without the
# library's header, and that of any other folder: it shares nothing with them.
SHARED_SOURCES = $(wildcard tests/model/*.c tests/inputs/*.c tests/harness/*.c)
SHARED = build/tests/shared.a

build/tests/model/%.o: INCLUDES =

$(SHARED): $(SHARED_SOURCES:%.c=build/%.o)
	rm -f $@
	$(AR) rcs $@ $^

# Linked anew each time: LIB may have been another archive before.
build/damage build/series build/replays build/exchange build/stack build/arena build/arena-asan \
		build/arena-valgrind: build/%: build/tests/%.o $(SHARED) $(LIB)
	$(CC) $(CFLAGS) $(WATCH) $^ -o $@

# The arena's test also where AddressSanitizer and valgrind watch it.
build/arena-asan build/tests/arena-asan.o: WATCH = -g -fsanitize=address
build/arena-valgrind build/tests/arena-valgrind.o: WATCH = -g -DLENSEMBER_VALGRIND

build/tests/arena-asan.o build/tests/arena-valgrind.o: tests/arena.c $(HEADERS) Makefile
	@mkdir -p $(@D)
	$(CC) $(CFLAGS) $(WATCH) $(INCLUDES) -c $< -o $@

build/program build/maps build/texts: build/%: build/tests/%.o $(SHARED)
	$(CC) $(CFLAGS) $^ -o $@

build/seeds: build/fuzz/once.o build/fuzz/boundary.o $(SHARED) $(LIB)
	$(CC) $(CFLAGS) $^ -o $@

FUZZ_SOURCES = fuzz/boundary.c $(SHARED_SOURCES)

build/boundary: $(FUZZ_SOURCES) $(HEADERS) $(LIB)
	./setup fuzz
	@mkdir -p $(@D)
	clang -std=c99 -g -O1 -fsanitize=fuzzer,address $(INCLUDES) $(FUZZ_SOURCES) $(LIB) -o $@

build/php: build/tests/php.o $(SHARED) $(LIB)
	./setup php
	$(CC) $(CFLAGS) $^ -l:libphp8.2.so -o $@

build/check build/calls: build/%: build/bench/%.o build/bench/timing.o build/bench/clock.o \
		build/bench/or.o $(SHARED) $(LIB)
	$(CC) $(CFLAGS) $^ -o $@

build/replaying: build/bench/replay.o build/bench/clock.o build/bench/plain.o \
		build/bench/others.o $(LIB)
	$(CC) $(CFLAGS) $^ $(PHP_LIB) -o $@

build/exchanging: build/bench/exchange.o build/bench/clock.o build/bench/scribe.o $(LIB)
	$(CC) $(CFLAGS) $^ -o $@

build/first build/editor: build/%: build/examples/%.o $(LIB)
	$(CC) $(CFLAGS) $^ -o $@

test:
	./test

# The host tests by their list. A name in it that has no rule here is an error.
TESTS := $(shell sed -n 's/^\([[:alpha:]][^: ]*\).*/\1/p' tests/programs.txt)

host-test: all $(TESTS:%=%-test)

list-tests:
	@echo $(TESTS)

damage-test series-test replays-test exchange-test arena-test arena-asan-test: %-test: build/%
	build/$*

arena-valgrind-test: build/arena-valgrind
	valgrind -q --error-exitcode=9 build/arena-valgrind 1 400

seeds-test: build/seeds
	build/seeds fuzz/seeds/*

stack-test: build/stack
	build/stack README.md

program-test: build/program $(PROGRAM)
	build/program $(PROGRAM)

maps-test: build/maps build/map build/paint
	build/maps build/map build/paint
	cmp docs/pagemap.svg crates/painter/stdout

texts-test: build/texts build/import build/export
	build/texts build/import build/export

install-test: all
	CC='$(CC)' CXX='$(CXX)' LIB='$(LIB)' PROGRAM='$(PROGRAM)' tests/install.sh

mistakes-test: $(LIB)
	CC='$(CC)' LIB='$(LIB)' tests/mistakes.sh

readme-test: all
	tests/readme.sh

COUNT ?= 20000000
SEED ?= $(shell date +%s)

long-test: build/series
	build/series $(SEED) $(COUNT)

php-test: build/php
	build/php

FUZZ_SECONDS ?= 300

fuzz: build/boundary
	@mkdir -p build/corpus
	build/boundary -max_total_time=$(FUZZ_SECONDS) -max_len=4096 -dict=fuzz/words.dict \
		-artifact_prefix=build/ build/corpus fuzz/seeds

bench: build/check build/calls build/replaying build/exchanging
	build/check $(if $(GATE),--gate $(GATE))
	build/calls
	build/replaying
	build/exchanging

run: $(PROGRAM)
	$(PROGRAM) <examples/sample.log

map: build/map
	build/map <examples/map.log

picture: build/paint
	build/paint <examples/map.log >build/pagemap.svg

import: build/import $(PROGRAM)
	build/import <examples/sample.txt | $(PROGRAM)

first: build/first
	build/first

editor: build/editor
	build/editor

# What is installed, below PREFIX.
CMAKE_FOLDER = lib/cmake/lensember
INSTALLED = include/lensember.h include/lensember_arena.h \
	lib/liblensember.a lib/pkgconfig/lensember.pc \
	$(CMAKE_FOLDER)/lensember-config.cmake $(CMAKE_FOLDER)/lensember-config-version.cmake \
	bin/lensember-replay bin/lensember-map bin/lensember-paint \
	bin/lensember-import bin/lensember-export \
	share/man/man1/lensember-replay.1 share/man/man1/lensember-map.1 \
	share/man/man1/lensember-paint.1 share/man/man1/lensember-import.1 \
	share/man/man1/lensember-export.1 \
	share/man/man3/lensember.3 share/man/man3/lensember_arena.3
ROOT = $(DESTDIR)$(PREFIX)

# Writes an installed file from the one of packaging/ that leaves the prefix and
# the version open.
fill = sed 's|@PREFIX@|$(PREFIX)|; s|@VERSION@|$(VERSION)|' packaging/$(notdir $(1)).in \
	>'$(ROOT)'/$(1) && chmod 644 '$(ROOT)'/$(1)

install: all
	install -d $(addprefix '$(ROOT)'/,$(sort $(dir $(INSTALLED))))
	install -m 644 include/lensember.h include/lensember_arena.h '$(ROOT)'/include/
	install -m 644 $(LIB) '$(ROOT)'/lib/liblensember.a
	$(call fill,lib/pkgconfig/lensember.pc)
	$(call fill,$(CMAKE_FOLDER)/lensember-config-version.cmake)
	install -m 644 packaging/lensember-config.cmake '$(ROOT)'/$(CMAKE_FOLDER)/
	install -m 755 $(PROGRAM) '$(ROOT)'/bin/lensember-replay
	install -m 755 build/map '$(ROOT)'/bin/lensember-map
	install -m 755 build/paint '$(ROOT)'/bin/lensember-paint
	install -m 755 build/import '$(ROOT)'/bin/lensember-import
	install -m 755 build/export '$(ROOT)'/bin/lensember-export
	install -m 644 man/lensember-replay.1 man/lensember-map.1 man/lensember-import.1 \
		'$(ROOT)'/share/man/man1/
	install -m 644 man/lensember-map.1 '$(ROOT)'/share/man/man1/lensember-paint.1
	install -m 644 man/lensember-import.1 '$(ROOT)'/share/man/man1/lensember-export.1
	install -m 644 man/lensember.3 man/lensember_arena.3 '$(ROOT)'/share/man/man3/

# The folder of the CMake files is the library's own, all others are shared.
uninstall:
	rm -f $(addprefix '$(ROOT)'/,$(INSTALLED))
	[ ! -d '$(ROOT)'/$(CMAKE_FOLDER) ] || \
		rmdir --ignore-fail-on-non-empty '$(ROOT)'/$(CMAKE_FOLDER)

clean:
	rm -rf build

.PHONY: all test host-test list-tests long-test php-test fuzz bench run map picture import first
.PHONY: editor install uninstall clean
.PHONY: build/damage build/series build/replays build/exchange build/stack build/seeds
.PHONY: build/arena build/arena-asan build/arena-valgrind build/boundary build/php
.PHONY: build/check build/calls build/replaying build/exchanging build/first build/editor
