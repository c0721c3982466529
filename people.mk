# What people use: the command, the C example, their installation, and the tests of all. Included by Makefile.
LIBRARY := build/lib/libyay.a
MANIFEST := --manifest-path rust/Cargo.toml
C_FLAGS := -std=c11 -Wall -Wextra -Wpedantic -Werror -Iinclude
PROFILES := $(wildcard examples/*.yay)
PREFIX ?= /usr/local

.PHONY: yay install c-example sanitize stack people-test

$(LIBRARY): crates.txt tools/library.sh $(shell find crates -name out -prune -o -name '*.rt' -print -o -name '*.antt' -print)
	@tools/proving.sh build/library.log tools/library.sh

yay: $(LIBRARY)
	cargo build --release --quiet $(MANIFEST) -p yay-command
	install -D -m 755 $(BUILT)/yay build/yay

# `make install PREFIX=/usr DESTDIR=folder` for whoever makes packages.
install: yay
	tools/install.sh build/yay $(LIBRARY) '$(DESTDIR)' '$(PREFIX)'

c-example: $(LIBRARY)
	@mkdir -p build
	cc $(C_FLAGS) -O2 c/example.c $(LIBRARY) -o build/example
	build/example examples/tablet.yay | diff c/example.out -

sanitize: $(LIBRARY)
	@mkdir -p build
	tools/sanitize.sh $(LIBRARY) build '$(C_FLAGS)' $(PROFILES)

stack: $(LIBRARY)
	@mkdir -p build
	cc $(C_FLAGS) -O2 c/stack.c $(LIBRARY) -lpthread -o build/stack
	build/stack

people-test: yay c-example sanitize stack
	YAY_VECTORS=$(CURDIR)/evidence/vectors/base.tsv YAY_WRITTEN=$(CURDIR)/evidence/vectors/written.tsv \
		cargo test --release --quiet $(MANIFEST) -p yay -p yay-command
	tools/try-command.sh build/yay
	tools/try-manual.sh man/yay.1 build/yay
	tools/try-header.sh $(LIBRARY) build '$(C_FLAGS)' build/yay
	tools/try-install.sh build/install
	tools/try-proving.sh build
