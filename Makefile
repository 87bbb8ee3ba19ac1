# Commands beside the gate (.ci/run); none of them is part of it. `make help` prints these lines.
#
# Beside the Rattle kit each needs what stands in brackets:
#   rust      the published Rust: the repository x4g4p3x/lme-rs at commit 8b8502d2c9, its folder named by SOURCE=folder
#   archive   libkemroul.a, which `make archive` writes
#
# The archive's answers against the published Rust's, bit for bit (oracle/README.md):
#   make differential    builds the archive, the oracle and the driver, and compares them   [rust, cargo, python3]
#   make compare         the same with the archive as it stands                             [rust, archive, cargo, python3]
#   make oracle          builds the oracle, the generator and the comparing programs        [rust, cargo, python3]
#   make oracle-test     tests the oracle itself by answers that were known before it       [rust, cargo, python3]
#   make strictmath      the oracle's exp, ln and sqrt with Java's StrictMath               [rust, cargo, python3, a JDK]
#   make distance        how far the unreplaced Rust lies from the replaced one             [rust, cargo, python3, LAPACK]
#   make sample          writes SAMPLE answered lines of OP to OUT                          [rust, cargo, python3]
#
# Speed, beside the published Rust (bench/README.md):
#   make bench           builds the archive, and prints the tables of docs/PERFORMANCE.md   [rust, cargo, python3, gcc; valgrind for instructions]
#   make measure         the same with the archive as it stands                             [also archive]
#   make performance     as bench, into docs/PERFORMANCE.md                                 [as bench]
#   make instructions    as measure, without times                                          [as measure, valgrind]
#   make trials          rounds and trials of generated fits                                [rust, archive, cargo, python3]
#
# What the firmware engineer holds:
#   make example         builds examples/c/refit.c and runs it                              [archive, a C compiler]
#   make header-test     the header as C and C++, and the documents against the sources     [python3, gcc, g++]
#   make bindings-test   header-test, the example, and bindings/rust                        [archive, python3, gcc, g++, cargo]
#   make stack           bytes of stack of each function of the header                      [archive, python3, gcc, objdump]

# The folder that holds the published Rust, as src/nlmm/fit.rs and so on.
SOURCE ?= ../shared/docs/src
# The operations that are compared, all that the archive has; one may have a count, as in fit=5000.
ALL = exp ln sqrt gh_order curve start fit criterion search
OPS ?= $(ALL)
SEED ?= 20261115
# The cases of exp, ln, sqrt and curve each; the dearer operations get a share (oracle/gen/src/main.rs).
LINES ?= 400000

RT ?= rt
CARGO ?= cargo build -j2 --release --offline --quiet
ARCHIVE_DIR ?= target/staticlib
BIN = oracle/target/release

DISTANCE_OPS ?= $(ALL)
DISTANCE_LINES ?= 100000
OP ?= exp
SAMPLE ?= 200
LONGEST ?= 4000
OUT ?= target/sample-$(OP).txt

# The operations that are measured on cases of gen, each in one row; the rows of named shapes follow.
BENCH_OPS ?= exp ln sqrt gh_order curve
BENCH_LINES ?= 2000
# How long each row is timed, and a text that the names of the rows must have.
BENCH_SECONDS ?= 1
BENCH_ROWS ?=
# UNREPLACED=1 measures the whole of the unreplaced Rust too, which needs LAPACK.
UNREPLACED ?=

.PHONY: help source differential compare oracle oracle-test copy archive driver strictmath distance sample
.PHONY: bench measure performance instructions bench-program machine
.PHONY: example bindings-test header-test stack trials

help:
	@sed -n '/^#/!q; s/^# \{0,1\}//p' Makefile

# Before anything is built.
source:
	@test -f $(SOURCE)/src/nlmm/fit.rs || { echo "no published Rust in $(SOURCE): check out x4g4p3x/lme-rs at commit 8b8502d2c9, and name its folder by SOURCE=folder" >&2; exit 1; }

copy: source
	@python3 oracle/copy_source.py $(SOURCE) oracle/target/copy

oracle: copy
	@cd oracle && $(CARGO)

oracle-test: copy
	@cd oracle && cargo test -j2 --offline --quiet -p fdlibm -p linalg-plain -p replaced

archive:
	cd crates/kemroul && $(RT) lib
	@mkdir -p $(ARCHIVE_DIR) && cp crates/kemroul/out/libkemroul.a $(ARCHIVE_DIR)/

driver: oracle
	@cd oracle && KEMROUL_ARCHIVE_DIR=$(abspath $(ARCHIVE_DIR)) $(CARGO) -p driver

differential: source archive
	@$(MAKE) --no-print-directory compare

# As `differential`, with the archive as it stands.
compare: driver
	@echo "seed $(SEED), operations: $(OPS)"
	@$(BIN)/compare "$(BIN)/gen $(SEED) $(LINES) $(OPS)" $(BIN)/oracle $(BIN)/driver

strictmath: oracle
	@mkdir -p oracle/target/java
	@javac -d oracle/target/java oracle/java/StrictMathAnswers.java
	@echo "seed $(SEED)"
	@$(BIN)/compare "$(BIN)/gen $(SEED) $(LINES) exp ln sqrt" $(BIN)/oracle "java -cp oracle/target/java StrictMathAnswers"

distance: oracle
	@cd oracle && $(CARGO) -p unreplaced
	@echo "realistic cases, seed $(SEED)"
	@$(BIN)/distance "$(BIN)/gen --realistic $(SEED) $(DISTANCE_LINES) $(DISTANCE_OPS)" $(BIN)/oracle $(BIN)/oracle-unreplaced
	@echo "all cases, seed $(SEED)"
	@$(BIN)/distance "$(BIN)/gen --longest $(LONGEST) $(SEED) $(DISTANCE_LINES) $(DISTANCE_OPS)" $(BIN)/oracle $(BIN)/oracle-unreplaced

sample: oracle
	@mkdir -p $(dir $(OUT))
	@$(BIN)/gen --longest $(LONGEST) $(SEED) $(SAMPLE) $(OP)=$(SAMPLE) | $(BIN)/oracle > $(OUT)
	@echo "$$(wc -l < $(OUT)) lines of $(OP), seed $(SEED), in $(OUT)"

bench-program: oracle
	@cd oracle && KEMROUL_ARCHIVE_DIR=$(abspath $(ARCHIVE_DIR)) $(CARGO) -p bench $(if $(UNREPLACED),--features unreplaced)

machine:
	@echo "$$(date -u +%F), $$(lscpu | sed -n 's/^Model name: *//p'), $$(nproc) cores, load $$(cut -d' ' -f1 /proc/loadavg), $$(rustc --version), $$($${CC:-gcc} --version | head -1), seed $(SEED)"
	@echo

BENCH = $(BIN)/gen --realistic $(SEED) $(BENCH_LINES) $(BENCH_OPS) | $(BIN)/bench tables

bench: source archive
	@$(MAKE) --no-print-directory measure

# As `bench`, with the archive as it stands.
measure: bench-program machine
	@$(BENCH) $(BENCH_SECONDS) "$(BENCH_ROWS)"

# Measures, and puts the tables below the last heading of docs/PERFORMANCE.md.
performance: source archive
	@$(MAKE) --no-print-directory bench-program
	@{ sed '/^## Measured$$/q' docs/PERFORMANCE.md; echo; $(MAKE) --no-print-directory machine; \
	  $(BENCH) $(BENCH_SECONDS) "$(BENCH_ROWS)" || echo failed; } > target/PERFORMANCE.md
	@! grep -q '^failed$$' target/PERFORMANCE.md
	@mv target/PERFORMANCE.md docs/PERFORMANCE.md

instructions: bench-program machine
	@$(BENCH) 0 "$(BENCH_ROWS)"

CC = gcc
CXX = g++
STRICT = -Wall -Wextra -pedantic -Werror -Iinclude

example:
	@$(MAKE) --no-print-directory -C examples/c ARCHIVE_DIR=$(abspath $(ARCHIVE_DIR)) run

bindings-test: header-test
	@$(MAKE) --no-print-directory -C examples/c ARCHIVE_DIR=$(abspath $(ARCHIVE_DIR)) test
	@cd bindings/rust && KEMROUL_ARCHIVE_DIR=$(abspath $(ARCHIVE_DIR)) cargo test -j1 --offline --quiet

# The declarations as C and C++ read them, and against what the crate exports; the documents against the sources and the edits; no lemma among the definitions.
header-test:
	@python3 bindings/declarations.py include/kemroul.h crates/kemroul/src/lib.rt
	@python3 bindings/promises.py .
	@python3 bindings/wrong_programs.py .
	@python3 bindings/definitions.py .
	@for std in c99 c11; do $(CC) -std=$$std $(STRICT) -fsyntax-only -x c include/kemroul.h || exit 1; done
	@for std in c++98 c++11; do $(CXX) -std=$$std $(STRICT) -fsyntax-only -x c++ include/kemroul.h || exit 1; done

# A function moves the stack pointer once, at its beginning (stack.c); memcpy and memset are bound before the calls.
stack: machine
	@test -f $(ARCHIVE_DIR)/libkemroul.a || { echo "no $(ARCHIVE_DIR)/libkemroul.a: run 'make archive' first" >&2; exit 1; }
	@mkdir -p target
	@$(CC) --version | sed -n 1p
	@$(CC) -std=gnu99 -O1 -maccumulate-outgoing-args $(STRICT) -o target/stack bench/stack/stack.c $(ARCHIVE_DIR)/libkemroul.a -Wl,-z,now
	@target/stack
	@echo "bound over all paths of the machine code"
	@python3 bench/stack/bound.py $(ARCHIVE_DIR)/libkemroul.a include/kemroul.h

trials: driver
	@echo "realistic cases, seed 20261115"
	@$(BIN)/gen --realistic 20261115 1 fit=5000 | $(BIN)/driver | awk -f bench/stack/trials.awk
	@echo "all cases, seed 20261117"
	@$(BIN)/gen 20261117 1 fit=20000 | $(BIN)/driver | awk -f bench/stack/trials.awk
