# make test: the gate. make session: the marked session of document 01. make replay FILE=..: plays a session file. make record: writes the marked session's file.
# make library: the static library and its header, in target/library. make examples: builds and runs the examples in C and Rust on it.
# make table: a table in the terminal. make bench: nanoseconds and instructions a call, played and replayed. make fmt: the layout of every file.
.PHONY: test session replay record table library examples bench fmt toolchain compiler cargo

toolchain:
	@command -v rt >/dev/null || { echo "Discgauze needs the Rattle toolchain: the command 'rt' is not on the PATH." >&2; exit 1; }

compiler:
	@command -v $(CC) >/dev/null || { echo "The examples need a C compiler: the command '$(CC)' is not on the PATH." >&2; exit 1; }

cargo:
	@command -v cargo >/dev/null || { echo "The example in Rust needs cargo: the command 'cargo' is not on the PATH." >&2; exit 1; }

test: toolchain
	@.ci/run

# rt run proves, compiles and runs a program of crates/, proved and compiled anew only where something has changed. What it says itself goes to standard error.
session: toolchain
	@cd crates/session && rt run

replay: toolchain
	@(cd crates/replay && rt run) < $(FILE)

record: toolchain
	@cd crates/record && rt run

# Compiled by a run with nothing to read. The table itself runs in this folder, where its session files are looked for.
table: toolchain
	@(cd crates/terminal && rt run) < /dev/null > /dev/null && crates/terminal/out/terminal

# Proved and compiled anew where a source is newer than the archive.
LIBRARY = target/library

$(LIBRARY)/libdiscgauze.a: crates.txt $(shell find crates -name out -prune -o \( -name '*.rt' -o -name '*.antt' \) -print) | toolchain
	@(cd crates/discgauze_c && rt lib) >&2 && mkdir -p $(LIBRARY) && cp crates/discgauze_c/out/libdiscgauze_c.a $@

$(LIBRARY)/discgauze.h: include/discgauze.h
	@mkdir -p $(LIBRARY) && cp $< $@

library: $(LIBRARY)/libdiscgauze.a $(LIBRARY)/discgauze.h
	@echo "$(LIBRARY) has libdiscgauze.a and discgauze.h"

# The header against the library; the marked session and its file; the books of that file; then the Rust example's tests, with a random run of a million calls.
examples: compiler cargo library
	@mkdir -p target/examples && for name in layout session books; do \
	$(CC) -std=c11 -O2 -Wall -Wextra -I$(LIBRARY) examples/c/$$name.c $(LIBRARY)/libdiscgauze.a -o target/examples/$$name || exit 1; done
	@target/examples/layout
	@target/examples/session target/examples/marked > target/examples/session.out && diff target/examples/session.out crates/session/stdout && \
	cmp target/examples/marked crates/record/stdout && cat target/examples/session.out
	@target/examples/books target/examples/marked > target/examples/books.out && diff target/examples/books.out examples/c/books.expected && cat target/examples/books.out
	@DISCGAUZE_LIBRARY=$(CURDIR)/$(LIBRARY) CARGO_TARGET_DIR=$(CURDIR)/target/examples/rust cargo test --quiet --offline --locked --release --manifest-path examples/rust/Cargo.toml -- --nocapture

# First the step, call by call; then a session file that is checked and played again and again. The time of the second has the writing of the file in it, less than a hundredth; its instructions are
# taken off, as those of no call replayed.
COUNTED = valgrind --tool=callgrind --callgrind-out-file=/dev/null

bench: toolchain
	@for each in bench bench_file; do (cd crates/$$each && rt run -- 0) >&2 || exit 1; done
	@calls=1000000 && begin=$$(date +%s%N) && crates/bench/out/bench $$calls && end=$$(date +%s%N) && \
	echo "$$(( (end - begin) / calls )) nanoseconds a call"
	@if command -v valgrind >/dev/null; then $(COUNTED) crates/bench/out/bench 20000 2>&1 | awk '/Collected/ { printf "%d instructions a call\n", $$NF / 20000 }'; \
	else echo "instructions a call are counted where valgrind is installed"; fi
	@calls=1000000 && begin=$$(date +%s%N) && crates/bench_file/out/bench_file $$calls && end=$$(date +%s%N) && \
	echo "$$(( (end - begin) / calls )) nanoseconds a call replayed"
	@if command -v valgrind >/dev/null; then { $(COUNTED) crates/bench_file/out/bench_file 0; $(COUNTED) crates/bench_file/out/bench_file 20000; } 2>&1 | \
	awk '/Collected/ { before = all; all = $$NF } END { printf "%d instructions a call replayed\n", (all - before) / 20000 }'; \
	else echo "instructions a call replayed are counted where valgrind is installed"; fi

fmt: toolchain
	@for each in crates/*/; do (cd $$each && rt fmt) || exit 1; done

# The table in the browser: make page writes target/page/, a folder that a browser opens from disk. make page-test: its test. make pictures: those of the README.
.PHONY: page page-test pictures
page: toolchain
	@web/make-page

page-test: toolchain
	@web/test/run

pictures: toolchain
	@web/test/run --pictures
