# What there is to do here, by name: `make` says it. Each name calls a script that can be called alone.

.PHONY: help first check test bench edits doc install

help:
	@sed -n 's/^\([a-z]*\):.*## /    make \1 \t/p' $(firstword $(MAKEFILE_LIST)) | expand -t 20

first: ## prove and build replay and show (minutes, the first time), play a small trace and print its log
	tools/build replay show
	target/bin/replay crates/replay/data/trace.bin | target/bin/show

check: ## the gate: layout, every proof, every edit that must be refused, every program, the tests (an hour of CPU time)
	.ci/run

test: ## the tests of what is built; make test PARTS=all for the longer ones, PARTS="vectors show" for some parts
	tests/run $(PARTS)

bench: ## the benchmarks: traces, calls, lines, index, vote, parity; make bench BENCHES=calls for one
	set -e; for name in $(or $(BENCHES),traces calls lines index vote parity); do echo "bench/$$name"; bench/$$name; done

edits: ## each edit of a crate that the prover must refuse; make edits CRATES="sci qspi" for some crates
	tests/edits $(CRATES)

doc: ## the documentation of the Rust binding, target/cargo/doc/qsm/index.html
	examples/archive
	cargo doc --offline --no-deps -p qsm

install: ## make install PREFIX=FOLDER: the programs, the library, its header and the Python module, proved first
	./install $(PREFIX)
