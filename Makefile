# Maftehon: `make test` proves and tests everything, `make help` lists the rest.

.PHONY: help test prove lib mft install fuzz exhaustive bench bulk runs layout

help:
	@echo "make test        prove every crate, try every must-fail edit, run every program and test; ends in 'N passed, 0 failed'"
	@echo "make prove       prove every crate that has changed"
	@echo "make lib         leave libmaftehon.a and its header in target/lib"
	@echo "make mft         build the program mft, for route files from the command line, and say where it is"
	@echo "make install     put the archive, its header, a pkg-config file, mft and runs below PREFIX=/usr/local"
	@echo "make fuzz        compare the library with the reference on fresh seeds for SECONDS=60"
	@echo "make exhaustive  compare both tries and the segment tables with the run listing at all 2^32 addresses (15 to 35 minutes)"
	@echo "make bench       measure the library against plain Rust and C, print a table, draw docs/speed.svg"
	@echo "make bulk        race stride 4 with a plain trie over 4,000,000 addresses, print a table, draw docs/bulk.svg"
	@echo "make runs        print the runs of examples/floor.routes, or of FILE=..."
	@echo "make layout      lay out every .rt and .antt file"
	@echo "CPU=x86-64-v2    beside lib, mft, install, fuzz, exhaustive, bench or bulk: with the library compiled for that processor"

# The whole gate. scripts/gate prints the prover's own last line as its last line.
test:
	@scripts/gate

prove:
	rt all check

# The processor that the archive is compiled for, as the compiler names it. Without one it is the plain archive, which is shipped. Whatever stands on the archive takes it too: make bench CPU=x86-64-v2.
CPU =
lib:
	@scripts/lib target/lib '$(CPU)'

# The program of docs/MFT.md, on the archive that `lib` leaves.
mft: lib
	@cd rust && cargo build --release --offline --package mft
	@echo "rust/target/release/mft"

# The archive and both commands, where programs look for them.
PREFIX ?= /usr/local
install: mft
	@scripts/build-runs
	@scripts/install '$(PREFIX)'

# The tools of rust/tools, on the archive that `lib` leaves.
TOOL = cd rust && cargo run --release --offline --quiet --package tools --bin

SECONDS ?= 60
fuzz: lib
	@$(TOOL) fuzz -- $(SECONDS)

exhaustive: lib
	@$(TOOL) exhaustive

bench: lib
	@$(TOOL) bench

bulk: lib
	@$(TOOL) bulk

FILE ?= examples/floor.routes
runs:
	@scripts/runs $(FILE)

layout:
	@for crate in crates/*/; do (cd "$$crate" && rt fmt) || exit 1; done
