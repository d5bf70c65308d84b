# What a release consists of, beside the archive and the command: the Makefile includes this file.
#
# make shared             the shared library, in target/shared
# make compare-shared     the C tests against the shared library
# make packages           the Debian packages, in target/packages
# make try-packages       installs, uses and removes the packages in minimal Debian roots
# make dist               the static command in an archive, and the source archive, in target/dist
# make reproducible       builds everything again in another folder, and compares every byte
# make fuzz               fuzzes the command and the library for FUZZ_SECONDS each, 60 by default
.PHONY: shared compare-shared packages try-packages dist reproducible fuzz install-shared

MACHINE ?= $(shell uname -m)
ifneq ($(MACHINE),x86_64)
$(error Legbaro is built on x86_64 alone, and this is $(MACHINE): the Rattle toolchain compiles \
the proved code for x86_64, and the gate tests no other processor)
endif

VERSION := $(shell tools/version)
SO := target/shared$(CPU:%=-%)
SO_FILE := $(SO)/liblegbaro.so.$(VERSION)

shared: $(SO_FILE)

$(SO_FILE): $(LIB)/liblegbaro.a tools/shared tools/liblegbaro.map tools/version include/legbaro.h
	@tools/needs cc
	CC='$(CC)' tools/shared $< $(SO) $(CFLAGS) $(LDFLAGS)

install: install-shared

install-shared: shared
	install -D -m 644 -t $(DESTDIR)$(LIBDIR) $(SO_FILE)
	cp -P $(SO)/liblegbaro.so $(SO)/liblegbaro.so.$(firstword $(subst ., ,$(VERSION))) $(DESTDIR)$(LIBDIR)

compare-shared: $(OUT)/tests-shared
	@$(OUT)/tests-shared

$(OUT)/tests-shared: $(wildcard tests/cases/*.[ch]) $(SHARED) $(SO_FILE) $(HEADERS)
	@tools/needs cc libcrypto isal
	@mkdir -p $(OUT)
	$(COMPILE) -Itests -pthread $(filter %.c,$^) -o $@ -L$(SO) -Wl,-rpath,$(abspath $(SO)) -llegbaro -lcrypto -lisal

$(OUT)/loaded: tests/chosen/loaded.c $(LIB)/liblegbaro.a
	@tools/needs cc
	@mkdir -p $(OUT)
	$(COMPILE) -I$(MODULE) $< -o $@ -ldl

LINTIAN ?= lintian --fail-on=error,warning --allow-root

packages: lib
	@tools/needs cc zlib debhelper lintian
	@tools/packages
	@$(LINTIAN) target/packages/*.changes

try-packages: packages
	@tools/needs debootstrap
	@tools/try-packages

dist: lib shared command $(OUT)/legbaro-static
	@tools/dist $(OUT)/legbaro-static

# Its bytes are the same whatever CFLAGS and LDFLAGS say.
$(OUT)/legbaro-static: $(wildcard command/*.c command/*.h) $(LIB)/liblegbaro.a $(HEADERS)
	@tools/needs cc zlib
	@mkdir -p $(OUT)
	$(CC) -std=c99 -O2 -I$(LIB) $(filter %.c,$^) -static -s -o $@ $(LINK) -lm -l:libz.a

reproducible: lib shared command packages dist
	@tools/reproducible

# The targets of fuzzing, by AFL++'s compiler with sanitizers: tests/fuzz says what each does.
FUZZ := target/fuzz
FUZZ_SECONDS ?= 60
FUZZED = AFL_QUIET=1 AFL_USE_ASAN=1 AFL_USE_UBSAN=1 afl-clang-fast -std=c99 -Wall -Wextra -O1 -g -fno-sanitize-recover=undefined -I$(LIB)

fuzz: $(FUZZ)/command $(FUZZ)/library $(OUT)/legbaro
	@tools/fuzz $(FUZZ) $(OUT)/legbaro $(FUZZ_SECONDS)

$(FUZZ)/command: tests/fuzz/command.c $(wildcard command/*.[ch]) $(LIB)/liblegbaro.a $(HEADERS)
	@tools/needs cc zlib afl++
	@mkdir -p $(FUZZ)
	$(FUZZED) -c -Dmain=legbaro_main -o $(FUZZ)/main.o command/main.c
	$(FUZZED) -Icommand $(filter-out command/main.c,$(filter %.c,$^)) $(FUZZ)/main.o -o $@ $(LINK) -lm -l:libz.a

$(FUZZ)/library: tests/fuzz/library.c tests/support/calls.c tests/support/buffers.c $(wildcard tests/reference/*.[ch]) $(LIB)/liblegbaro.a $(HEADERS)
	@tools/needs cc libcrypto afl++
	@mkdir -p $(FUZZ)
	$(FUZZED) -fsanitize=fuzzer -Itests $(filter %.c,$^) -o $@ $(LINK) -lcrypto
