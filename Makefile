# make demo: proves the library and runs a kiosk and a controller; rt try in crates/demo runs them in half a minute, with nothing proved.
# make test: the gate, .ci/run. Its last line is rt ci's 'N passed, 0 failed'; on a failure it is 'gate: failed'.
# make bench: measures the calls and a replay beside the second program's; it also needs valgrind and python3.
SHELL := bash
.SHELLFLAGS := -euo pipefail -c
.ONESHELL:
.PHONY: bench demo test

need = need() { command -v "$$1" >/dev/null || { echo "make $@: the command $$1 is missing: $$2"; exit 1; }; }
kit = need rt "install the Rattle kit and put its bin folder on PATH"

demo:
	@$(need)
	$(kit)
	log=$$(mktemp)
	trap 'rm -f "$$log"' EXIT
	echo "make demo: each crate is proved before demo is built, which takes a while the first time; the next time it starts at once."
	echo "To look first: crates/demo/stdout is what it prints, and rt try in crates/demo runs it in half a minute, with nothing proved."
	cd crates/demo
	rt check 2>&1 | tee "$$log" | { grep --line-buffered '^crate ' || true; } || { cat "$$log"; echo "make demo: failed"; exit 1; }
	echo
	rt run 2>"$$log" || { cat "$$log"; echo "make demo: failed"; exit 1; }

test:
	@.ci/run

bench:
	@$(need)
	$(kit)
	need cargo "install Rust; no crate is fetched"
	need valgrind "it counts the instructions"
	echo "make bench: drive and replay are proved before they are built."
	(cd crates/drive && rt run </dev/null)
	(cd crates/replay && rt run -- data/kiosk.table data/kiosk.capture)
	cargo build --release --offline --quiet --manifest-path tests/second/Cargo.toml
	python3 tests/bench/bench.py
