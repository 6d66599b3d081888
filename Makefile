# Builds, runs and installs; `make help` lists what. Whatever is built is proved first; `rt` comes with the Rattle kit.

VERSION := $(shell awk -F'"' '/ VEK_VERSION / { print $$2 }' include/vekszalir.h)
PREFIX ?= /usr/local
DESTDIR ?=

SOURCES := $(shell find crates crates.txt -type f -not -path '*/out/*')
PROGRAM = crates/counter/out/counter
AUDITOR = crates/auditor/out/auditor
ARCHIVE = crates/heap_c/out/libheap_c.a
HOST = target/host
SLOW_LINE = target/slow_line
DUMP = target/dump

.PHONY: help run audit host slow-line dump test install uninstall

help: ## this list
	@awk -F ':.*## ' 'NF == 2 && /^[a-z]/ { printf "make %-9s  %s\n", $$1, $$2 }' Makefile

run: $(PROGRAM) ## the program, on standard input: make -s run < examples/basket.csv
	@$(PROGRAM)

audit: $(AUDITOR) ## the audit of heaps that come as text, on standard input: make -s audit < examples/boxes.csv
	@$(AUDITOR)

host: $(HOST) ## the example of an engine in C, examples/host.c
	@$(HOST)

slow-line: $(SLOW_LINE) ## the example of calls that arrive in bits, examples/slow_line.c: make -s slow-line < examples/basket.csv
	@$(SLOW_LINE)

dump: $(DUMP) ## the example of heaps sent for the audit, examples/dump.c: make -s dump | make -s audit
	@$(DUMP)

test: ## the whole gate
	@.ci/run

# Standard output and standard input are the program's own: what the proofs say goes to standard error.
$(PROGRAM) $(AUDITOR) $(ARCHIVE): crates/%: $(SOURCES)
	@tools/prove $(firstword $(subst /, ,$*)) && touch -c $@

$(HOST) $(SLOW_LINE) $(DUMP): target/%: examples/%.c include/vekszalir.h $(ARCHIVE)
	@mkdir -p target
	@$(CC) -std=c11 -O2 -Wall -Wextra -Iinclude -o $@ $< $(ARCHIVE)

install: $(ARCHIVE) ## the archive, its header and a pkg-config file, below PREFIX (/usr/local); DESTDIR goes in front
	install -d "$(DESTDIR)$(PREFIX)/include" "$(DESTDIR)$(PREFIX)/lib/pkgconfig"
	install -m 644 include/vekszalir.h "$(DESTDIR)$(PREFIX)/include/vekszalir.h"
	install -m 644 $(ARCHIVE) "$(DESTDIR)$(PREFIX)/lib/libvekszalir.a"
	sed -e 's|@PREFIX@|$(PREFIX)|' -e 's|@VERSION@|$(VERSION)|' include/vekszalir.pc.in > "$(DESTDIR)$(PREFIX)/lib/pkgconfig/vekszalir.pc"

uninstall: ## removes what install has put there
	rm -f "$(DESTDIR)$(PREFIX)/include/vekszalir.h" "$(DESTDIR)$(PREFIX)/lib/libvekszalir.a" "$(DESTDIR)$(PREFIX)/lib/pkgconfig/vekszalir.pc"
