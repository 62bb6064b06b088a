# Cherrymarl: the proved archive, and the command line d64 over it. Needs the Rattle kit (rt) and a C compiler;
# the tests and the benchmark need cargo too.
#
#   make                    prove and build everything: build/libd64.a, build/d64
#   make demo               master a disk, step by step
#   make test               the gate
#   make install PREFIX=..  header, archive, pkg-config file, man page, tool
#   make bench, make peers, make fuzz FUZZ_SECONDS=..

VERSION = 2.0.0
PREFIX ?= /usr/local
BUILD ?= build
ARCHIVE ?= $(BUILD)/libd64.a
FUZZ_SECONDS ?= 1800
CFLAGS ?= -O2 -g

TOOL_CFLAGS = -std=c11 -Wall -Wextra -Wconversion -Wshadow -Wformat=2 -Iinclude -DD64_VERSION='"$(VERSION)"'
TOOL_SOURCES = $(wildcard tool/*.c)
TOOL_HEADERS = $(wildcard tool/*.h) include/d64.h
SANITIZERS = -O1 -g -fsanitize=address,undefined -fno-sanitize-recover=all
RATTLE = crates.txt $(shell find crates -name out -prune -o '(' -name '*.rt' -o -name '*.antt' ')' -print)

all: $(BUILD)/d64 $(BUILD)/d64.pc

# rt proves every function that the archive holds before it makes it; its lines on each crate are shown as they come. The archive of crate d64_c is
# libd64.a for C.
$(BUILD)/libd64.a: $(RATTLE)
	@command -v rt >/dev/null || { echo 'rt, the command of the Rattle kit, is not on the PATH'; exit 1; }
	@mkdir -p $(BUILD)
	@echo 'proving the library: some minutes, many if nothing of it is proved yet'
	@{ (cd crates/d64_c && rt lib) 2>&1; echo $$? >$(BUILD)/proof.status; } | tee $(BUILD)/proof.log | grep --line-buffered '^rt: ' || true
	@status=$$(cat $(BUILD)/proof.status); [ "$$status" -eq 0 ] || { tail -n 20 $(BUILD)/proof.log; exit "$$status"; }
	@echo "functions proved just now: $$(grep -c '^fn .*: proved' $(BUILD)/proof.log)"
	@cp crates/d64_c/out/libd64_c.a $@

$(BUILD)/d64: $(TOOL_SOURCES) $(TOOL_HEADERS) $(ARCHIVE) Makefile
	@mkdir -p $(BUILD)
	$(CC) $(TOOL_CFLAGS) $(CPPFLAGS) $(CFLAGS) $(LDFLAGS) -o $@ $(TOOL_SOURCES) $(ARCHIVE)

$(BUILD)/d64-sanitized: $(TOOL_SOURCES) $(TOOL_HEADERS) $(ARCHIVE) Makefile
	@mkdir -p $(BUILD)
	$(CC) $(TOOL_CFLAGS) -Werror $(SANITIZERS) -o $@ $(TOOL_SOURCES) $(ARCHIVE)

$(BUILD)/d64.pc: d64.pc.in Makefile
	@mkdir -p $(BUILD)
	sed -e 's|@PREFIX@|$(PREFIX)|' -e 's|@VERSION@|$(VERSION)|' d64.pc.in >$@

demo: $(BUILD)/d64
	demo/run $(BUILD)/d64

test:
	.ci/run

bench: $(ARCHIVE)
	bench/run $(dir $(ARCHIVE))

peers: $(BUILD)/d64
	tests/peers/run $(BUILD)/d64

fuzz: $(ARCHIVE)
	tests/fuzz/run $(dir $(ARCHIVE)) $(FUZZ_SECONDS)

# The pkg-config file is made again: PREFIX may be another one than before.
install: $(BUILD)/d64
	@rm -f $(BUILD)/d64.pc
	@$(MAKE) --no-print-directory $(BUILD)/d64.pc
	install -D -m 755 $(BUILD)/d64 $(DESTDIR)$(PREFIX)/bin/d64
	install -D -m 644 include/d64.h $(DESTDIR)$(PREFIX)/include/d64.h
	install -D -m 644 $(ARCHIVE) $(DESTDIR)$(PREFIX)/lib/libd64.a
	install -D -m 644 $(BUILD)/d64.pc $(DESTDIR)$(PREFIX)/lib/pkgconfig/d64.pc
	install -D -m 644 man/d64.1 $(DESTDIR)$(PREFIX)/share/man/man1/d64.1

uninstall:
	rm -f $(addprefix $(DESTDIR)$(PREFIX)/,bin/d64 include/d64.h lib/libd64.a lib/pkgconfig/d64.pc share/man/man1/d64.1)

clean:
	rm -rf $(BUILD)

.PHONY: all demo test bench peers fuzz install uninstall clean
