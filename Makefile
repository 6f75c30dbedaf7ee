# make test          the gate: proofs, must-fail edits, tests; its last line is "N passed, 0 failed"
# make run           builds the replay program and replays a sample drawing: its links before and after two edits
# make proved        proves every crate and prints what is proved
# make bench         whole calls timed beside two peers in safe Rust; ONLY=edit picks the calls with that in their name
# make worst         a search for the slowest edit, for SECONDS=n; it prints the edit and its drawing, and CASE=file times one again
# make stack         the stack that each call uses at 512 x 512 nodes; fails at 128 KB
# make edits         the must-fail edits alone
# make fuzz          the calls beside the model on fresh seeds, for SECONDS=n (60)
# make fuzz-guided   the same, led by the model's coverage (libFuzzer), for SECONDS=n
# make install       archive, headers, CMake and pkg-config files to PREFIX (/usr/local), below DESTDIR
# make pictures      draws docs/pictures from what the engine gives
# make reproducible  builds the archive in two clones and compares them; proves everything twice
# make help          this list
.PHONY: help test run bench worst stack stack-run edits fuzz fuzz-guided proved install pictures reproducible

SECONDS = 60
PREFIX = /usr/local
DESTDIR =

archive = target/staticlib/libpairing.a

help:
	@sed -n 's/^# make/make/p' Makefile

test:
	@tools/gate

run:
	@tools/prove replay
	@target/bin/replay <crates/replay/stdin

proved:
	@tools/proved

bench: $(archive)
	@ONLY="$(ONLY)" cargo run --release --offline --manifest-path rust/bench/Cargo.toml

worst: $(archive)
	@SECONDS=$(SECONDS) CASE="$(CASE)" cargo run --release --offline --manifest-path rust/bench/Cargo.toml --bin worst

stack: $(archive)
	@$(MAKE) -s stack-run

## The archive as it stands, for the gate.
stack-run:
	@tools/interface
	@g++ -std=c++17 -O2 -Wall -Wextra -Werror -pedantic -Iinclude -Icpp -Itarget/interface rust/bench/stack.cpp $(archive) -pthread -o target/stack
	@target/stack

edits:
	@tools/edits

fuzz: $(archive)
	@FUZZ_SECONDS=$(SECONDS) cargo test --release --offline --manifest-path rust/differential/Cargo.toml --test calls fuzz -- --ignored --nocapture

# What the archive is made of; a proof is part of it, since without one there is no archive.
crates = $(addprefix crates/,$(shell tools/crates pairing_c))
$(archive): $(shell find $(crates) -name out -prune -o \( -name '*.rt' -o -name '*.antt' \) -print)
	@tools/prove pairing_c

into = $(DESTDIR)$(PREFIX)
install: $(archive)
	@install -d "$(into)/include" "$(into)/lib/pkgconfig" "$(into)/lib/cmake/pairing" "$(into)/share/doc/pairing"
	@install -m 644 include/pairing.h include/pairing.hpp include/pairing_rows.hpp "$(into)/include"
	@install -m 644 $(archive) "$(into)/lib"
	@install -m 644 packaging/pairingConfig.cmake packaging/pairingConfigVersion.cmake "$(into)/lib/cmake/pairing"
	@install -m 644 LICENSE CHANGELOG.md "$(into)/share/doc/pairing"
	@version=$$(sed -n 's/^#define PAIRING_VERSION "\(.*\)"$$/\1/p' include/pairing.h) && \
	sed "s/@VERSION@/$$version/" packaging/pairing.pc.in >"$(into)/lib/pkgconfig/pairing.pc"
	@echo "installed to $(into)"

fuzz-guided: $(archive)
	@tools/fuzz $(SECONDS)

pictures: $(archive)
	@tools/pictures

reproducible:
	@tools/reproducible
