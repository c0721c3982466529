# The README's commands, and what they need.
SHELL := bash
.SHELLFLAGS := -eo pipefail -c
.PHONY: test ci evidence compare soak bench figures linked run
.DEFAULT_GOAL := test

export CARGO_TARGET_DIR := $(CURDIR)/build/cargo
export CARGO_NET_OFFLINE := true
BUILT := build/cargo/release
EVIDENCE := --release --quiet --manifest-path evidence/Cargo.toml
VECTORS := evidence/vectors/base.tsv

include people.mk

# `rt ci` proves every crate, tries every must-fail edit and runs every program; what needs no proof is tried beside it. The
# library is made behind it, since two commands of rt wait for each other, and what links the library behind that. So rt ci's
# last line is kept, and said again when all is done.
test:
	$(MAKE) -j2 evidence ci
	$(MAKE) people-test compare
	@tail -n 1 build/ci.out | grep -xE '[0-9]+ passed, 0 failed'

# A must-fail edit that cannot be applied or read fails nothing in `rt ci`, and fails here.
ci:
	@mkdir -p build
	rt ci 2>&1 | tee build/ci.out
	@grep -q '^rt: ok; ' build/ci.out
	@! grep -E '^rt: ok; .*, [0-9]+ bad' build/ci.out

# The second reader and the slow checker of places agree with each other and with the vectors.
evidence:
	MAKEFLAGS= nice cargo build $(EVIDENCE) && MAKEFLAGS= nice cargo test $(EVIDENCE)
	$(BUILT)/vectors $(VECTORS)
	nice $(BUILT)/places 2000 7

# The proved reader agrees with the second reader, on a million documents and more; the writer and the test of soundness
# with the second ones, on hundreds of thousands of tables; the upgrade decision with the second one, on millions of pairs; the overlay
# with the second one, on hundreds of thousands; storing and loading with the second ones, on a million tables and forms.
compare: linked
	$(BUILT)/compare --vectors $(VECTORS)

# The same as long as one likes: `make soak SECONDS=600`, or until it is stopped; SEED= gives the same documents again.
soak: linked
	$(BUILT)/compare --soak --vectors $(VECTORS) --seed $(or $(SEED),$(shell date +%s)) $(if $(SECONDS),--seconds $(SECONDS))

# Figures of speed; `make figures` puts them below the last heading of docs/BENCHMARKS.md.
bench: linked
	@echo "$$(date -u +%F), $$(uname -m), $$(lscpu | sed -n 's/^Model name: *//p'), native code from the proved module"; echo
	@$(BUILT)/bench

figures: linked
	@mkdir -p build
	$(MAKE) --silent --no-print-directory bench | tee build/figures
	sed -i '/^## Figures/q' docs/BENCHMARKS.md
	(echo; cat build/figures) >> docs/BENCHMARKS.md

# The programs of evidence/ that link the library.
linked: $(LIBRARY)
	cargo build $(EVIDENCE) --features stored --bin compare --bin bench

# The tree of an example profile, read by the proved reader.
run: yay
	build/yay show examples/tablet.yay
