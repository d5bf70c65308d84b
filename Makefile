# make                    the command legbaro, in target/c
# make demo               a file's week told by the command's own words, in a scratch folder: command/demo
# make week               one file's week in C on real files, and a month in one load, told step by step: examples/
# make sheet              a planning sheet: room, reading, work and risk of a file from its numbers
# make lib                the archive and its headers in target/legbaro: code for plain x86-64, with AVX2 and with AVX-512, and a choice between them
# make lib CPU=NAME       the archive with one variant alone, in target/legbaro-NAME; NAME is x86-64, avx2 or avx512
#                         CPU=NAME goes with command, demo, week, install and compare too
# make install PREFIX=    command, manual page, completion, headers, archive and pkg-config file below PREFIX, /usr/local where none is given
# make test               the gate: proves every crate, tries the edits that must be refused, runs the programs and the C tests
# make compare            the C tests alone: the library against the reference implementation
# make try-command        the command's tests alone: command/tests
# make soak               random commands, killed at random moments, held to a book in Python: SECONDS=600 SEED=38 are the defaults
# make chosen             prints which variant the archive takes on this processor
# make bench              times the library against the reference implementation and ISA-L; the tables of docs/PERFORMANCE.md
# make headline           times one great set-up, whole: 11,680 tokens of 512 positions over 4,096 blocks of 4,096 bytes
# make prove              proves every crate that changed since it was last proved, and runs the programs
# make shared, packages, dist, reproducible, fuzz   what a release consists of: tools/release.mk
.PHONY: command demo try-command soak week sheet lib install test compare chosen bench headline prove

PREFIX ?= /usr/local
LIBDIR ?= $(PREFIX)/lib
CFLAGS ?= -O2
CPU ?=
SECONDS ?= 600
SEED ?= 38
MODULE := target/module
LIB := target/legbaro$(CPU:%=-%)
OUT := target/c$(CPU:%=-%)
HEADERS := $(patsubst include/%,$(LIB)/%,$(wildcard include/*.h include/*/*.h))
COMPILE = $(CC) -std=c99 -pedantic -Wall -Wextra $(CFLAGS) -I$(LIB)
LINK = -L$(LIB) -llegbaro
SHARED := $(wildcard tests/reference/*.[ch] tests/support/*.[ch])

command: $(OUT)/legbaro

$(OUT)/legbaro: $(wildcard command/*.c command/*.h) $(LIB)/liblegbaro.a $(HEADERS)
	@tools/needs cc zlib
	@mkdir -p $(OUT)
	$(COMPILE) $(filter %.c,$^) -o $@ $(LDFLAGS) $(LINK) -lm -l:libz.a

demo: $(OUT)/legbaro
	@command/demo $<

try-command: $(OUT)/legbaro $(OUT)/shim.so
	@tools/needs python3
	@command/tests/all $(OUT)/legbaro $(OUT)/shim.so

soak: $(OUT)/legbaro $(OUT)/shim.so
	@tools/needs python3
	@command/tests/soak $(OUT)/legbaro $(OUT)/shim.so --seconds $(SECONDS) --seed $(SEED)

$(OUT)/shim.so: command/tests/shim.c
	@mkdir -p $(OUT)
	$(CC) -std=c99 -pedantic -Wall -Wextra $(CFLAGS) -shared -fPIC $< -o $@ -ldl

week: $(OUT)/week
	@$(OUT)/week

$(OUT)/week: $(wildcard examples/*.c examples/*.h) $(LIB)/liblegbaro.a $(HEADERS)
	@tools/needs cc
	@mkdir -p $(OUT)
	$(COMPILE) $(filter %.c,$^) -o $@ $(LINK)

sheet: $(OUT)/legbaro
	@$< sheet

lib: $(LIB)/liblegbaro.a $(HEADERS)
	@echo "$(LIB)/liblegbaro.a: $$(wc -c < $(LIB)/liblegbaro.a) bytes"

$(MODULE)/legbaro.ll: crates.txt $(shell find crates -name out -prune -o -type f -print) tools/module
	tools/module $(MODULE)

$(LIB)/liblegbaro.a: $(MODULE)/legbaro.ll tools/archive tools/choose.c tools/processors tools/wide
	tools/archive $(MODULE) $@ $(CPU)

$(HEADERS): $(LIB)/%: include/%
	install -D -m 644 $< $@

install: lib command
	install -D -m 755 $(OUT)/legbaro $(DESTDIR)$(PREFIX)/bin/legbaro
	install -D -m 644 command/legbaro.1 $(DESTDIR)$(PREFIX)/share/man/man1/legbaro.1
	install -D -m 644 command/completion.bash $(DESTDIR)$(PREFIX)/share/bash-completion/completions/legbaro
	install -D -m 644 command/completion.zsh $(DESTDIR)$(PREFIX)/share/zsh/site-functions/_legbaro
	install -D -m 644 command/completion.fish $(DESTDIR)$(PREFIX)/share/fish/vendor_completions.d/legbaro.fish
	install -D -m 644 -t $(DESTDIR)$(PREFIX)/include $(LIB)/legbaro.h
	install -D -m 644 -t $(DESTDIR)$(PREFIX)/include/legbaro $(LIB)/legbaro/*.h
	install -D -m 644 $(LIB)/liblegbaro.a $(DESTDIR)$(LIBDIR)/liblegbaro.a
	install -d $(DESTDIR)$(LIBDIR)/pkgconfig
	sed 's|@PREFIX@|$(abspath $(PREFIX))|; s|@LIBDIR@|$(abspath $(LIBDIR))|; s|@VERSION@|$(VERSION)|' legbaro.pc.in > $(DESTDIR)$(LIBDIR)/pkgconfig/legbaro.pc

test:
	@tools/gate

compare: $(OUT)/tests
	@$(OUT)/tests

$(OUT)/tests: $(wildcard tests/cases/*.[ch]) $(SHARED) $(LIB)/liblegbaro.a $(HEADERS)
	@tools/needs cc libcrypto isal
	@mkdir -p $(OUT)
	$(COMPILE) -Itests -pthread $(filter %.c,$^) -o $@ $(LINK) -lcrypto -lisal

$(OUT)/spec-outputs: tests/spec/outputs.c $(LIB)/liblegbaro.a $(HEADERS)
	@mkdir -p $(OUT)
	$(COMPILE) $< -o $@ $(LINK)

# These two know the variants in the archive by their own names, so they are for the archive that has them all.
chosen: $(OUT)/chosen
	@$(OUT)/chosen

$(OUT)/chosen: tests/chosen/chosen.c $(LIB)/liblegbaro.a
	@tools/needs cc
	@mkdir -p $(OUT)
	$(COMPILE) -fPIC -fno-plt -I$(MODULE) $< -o $@ $(LINK)

bench: $(OUT)/bench
	@$(OUT)/bench

headline: $(OUT)/bench
	@$(OUT)/bench --headline

$(OUT)/bench: $(wildcard bench/*.c bench/*.h) $(SHARED) $(LIB)/liblegbaro.a $(HEADERS)
	@tools/needs cc libcrypto isal
	@mkdir -p $(OUT)
	$(COMPILE) -Itests -I$(MODULE) $(filter %.c,$^) -o $@ $(LINK) -lcrypto -lisal

prove:
	rt all check
	@for program in rows vectors; do (cd crates/$$program && rt run 2>/dev/null | diff stdout -) || exit 1; done

# The shared library, packages, archives of a release, and fuzzing.
include tools/release.mk
