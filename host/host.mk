# What links the proved library. The paths are those of the repository's root.
# RATHNODI_LIB_DIR names a folder with another librathnodi.a, for which nothing is proved here; HOST_LIBS is what that one needs.
# RATHNODI_REPLAY names another program replay in the same way.
PREFIX ?= /usr/local
INTO = $(DESTDIR)$(PREFIX)
LIB_DIR = $(or $(RATHNODI_LIB_DIR),target/staticlib)
LIB = $(LIB_DIR)/librathnodi.a
REPLAY = $(or $(RATHNODI_REPLAY),target/bin/replay)
HOST_CFLAGS = -std=c11 -O2 -Wall -Wextra -Wconversion -Wcast-qual -Werror -pedantic -Iinclude
# The header is the one place that has the version.
VERSION = $(shell sed -n 's/^.define RATHNODI_VERSION_[A-Z]* \([0-9]*\)$$/\1/p' include/rathnodi.h | paste -s -d .)

.PHONY: run host-test bench bench-replay install FORCE
# One rt at a time, also under make -j.
.NOTPARALLEL:

# The panel's short shift, and a replay of its recording.
run: target/host/panel $(REPLAY)
	@target/host/panel target/host/recording target/host/results
	@$(REPLAY) <target/host/recording >target/host/replayed && cmp target/host/results target/host/replayed
	@echo; echo "The recorded shift is replayed; the first lines with their results:"
	@paste target/host/replayed target/host/recording | cut -c 1-100 | sed -n '2,9s/^/  /p'
	@echo "  .. all $$(wc -l <target/host/results) results are those of the shift."

# All tests of the host side; the last line counts.
host-test: target/host/edges target/host/helpers target/host/lines target/host/panel target/host/saves target/host/stack $(REPLAY)
	@host/test "$(abspath $(LIB_DIR))" "$(abspath $(REPLAY))"

bench: $(LIB)
	@echo 'int main(void) { return 0; }' | $(CC) -x c - -o /dev/null -lsqlite3 -lcrypto 2>/dev/null || { echo "SQLite or OpenSSL is missing: apt-get install -y libsqlite3-dev libssl-dev" >&2; exit 1; }
	@mkdir -p target/bench
	@cd host && RATHNODI_LIB_DIR="$(abspath $(LIB_DIR))" cargo run --offline --quiet --release -p bench -- --chart ../target/bench

# A replay beside the same calls made directly.
bench-replay: $(LIB) $(REPLAY)
	@mkdir -p target
	@$(CC) $(HOST_CFLAGS) -o target/bench-replay bench/replay.c $(LIB) $(HOST_LIBS)
	@target/bench-replay $(REPLAY)

install: $(LIB) $(REPLAY)
	install -d "$(INTO)/bin" "$(INTO)/include" "$(INTO)/lib/pkgconfig" "$(INTO)/share/man/man1" "$(INTO)/share/man/man3"
	install -m 755 $(REPLAY) "$(INTO)/bin/rathnodi-replay"
	install -m 644 include/rathnodi.h "$(INTO)/include/rathnodi.h"
	install -m 644 $(LIB) "$(INTO)/lib/librathnodi.a"
	sed 's|@PREFIX@|$(PREFIX)|; s|@VERSION@|$(VERSION)|' host/rathnodi.pc.in >"$(INTO)/lib/pkgconfig/rathnodi.pc"
	sed 's|@VERSION@|$(VERSION)|' host/man/rathnodi.3 >"$(INTO)/share/man/man3/rathnodi.3"
	sed 's|@VERSION@|$(VERSION)|' host/man/rathnodi-replay.1 >"$(INTO)/share/man/man1/rathnodi-replay.1"

target/host/%: host/panel/%.c host/panel/check.h include/rathnodi.h $(LIB) target/host/built-by
	@$(CC) $(HOST_CFLAGS) -o $@ $< $(LIB) $(HOST_LIBS)

# The archive and the program are made again where a crate or the kit has changed: what rt leaves in a crate's out/ is copied. They get the
# time at which that began, so that a file saved meanwhile is newer. `rt run` also runs the program, here over no input. Where there is no rt,
# what is at hand is taken as it stands. The program runs by itself on x86-64 Linux with glibc 2.34 or later.
ifneq ($(shell command -v rt 2>/dev/null),)
SOURCES := $(shell find crates.txt crates/*/src crates/*/specs crates/*/proofs)

target/staticlib/librathnodi.a: $(SOURCES) target/kit
	@echo "rt lib of crate rathnodi_c: what has changed is proved, then compiled; from nothing that takes some minutes"
	@mkdir -p $(@D) && touch target/began
	@(cd crates/rathnodi_c && rt lib) >target/rathnodi.out 2>&1 || { cat target/rathnodi.out; exit 1; }
	@cp crates/rathnodi_c/out/librathnodi_c.a $@ && touch -r target/began $@

target/bin/replay: $(SOURCES) target/kit
	@echo "rt run of crate replay: what has changed is proved, then the program is compiled"
	@mkdir -p $(@D) && touch target/began
	@(cd crates/replay && rt run </dev/null) >target/replay.out 2>&1 || { cat target/replay.out; exit 1; }
	@cp crates/replay/out/replay $@ && touch -r target/began $@
else
target/staticlib/librathnodi.a target/bin/replay: FORCE
	@test -f $@ || { echo "there is neither rt (the Rattle kit) nor $@" >&2; exit 1; }
	@echo "there is no rt: $@ is taken as it stands"
endif

# Two files that are written where what they say has changed: the kit's name, and what builds the C programs.
target/kit: FORCE
	@mkdir -p $(@D)
	@rt version | cmp -s - $@ || rt version >$@

target/host/built-by: FORCE
	@mkdir -p $(@D)
	@echo '$(CC) $(abspath $(LIB))' | cmp -s - $@ || echo '$(CC) $(abspath $(LIB))' >$@
