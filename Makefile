# The sample card that `make list` lists.
CARD ?= samples/slof-64k.img

# Where `make install` puts the package: below DESTDIR, in PREFIX, which is the folder that nvram.pc names.
PREFIX ?= /usr/local
DESTDIR ?=

help:
	@echo 'make list [CARD=path]   build the proved nvlist and list a card (default: samples/slof-64k.img)'
	@echo 'make test               prove every crate, try the must-fail edits, run every program and case'
	@echo 'make lib                prove and write target/staticlib/libnvram_c.a, for C, C++ and Rust to link'
	@echo 'make install            install header, archive, nvlist, nvram.pc and manual pages (PREFIX, DESTDIR)'
	@echo 'make bench              time every call beside a plain Rust implementation (needs cargo, cc and objcopy)'
	@echo 'make fmt                lay out every source, definition and proof, and the Rust of bindings/ and tests/'

# A word for the shell, whatever it holds.
quoted = '$(subst ','\'',$(1))'

# The whole card is read first, up to the byte by which it is too long, so that one that cannot be read is named.
list: target/bin/nvlist
	@card=$(call quoted,$(value CARD)); copy=$$(mktemp) || exit 1; trap 'rm -f "$$copy"' EXIT; \
	if ! { head -c 65537 <"$$card" >"$$copy"; } 2>/dev/null; then \
	    printf 'make list: cannot read %s\n' "$$card" >&2; \
	    exit 1; \
	fi; \
	target/bin/nvlist <"$$copy"

test:
	@tests/run

lib: target/staticlib/libnvram_c.a

bench: target/staticlib/libnvram_c.a
	@tests/bench/run

fmt:
	@for crate in crates/*/; do (cd "$$crate" && rt fmt) || exit 1; done
	@cargo fmt --all --manifest-path tests/Cargo.toml
	@cargo fmt --all --manifest-path bindings/rust/Cargo.toml

# What a proof depends on, without what the prover keeps in out/.
sources := crates.txt $(shell find crates -name out -prune -o -type f ! -path '*/must-fail/*' ! -name '*.md' -print 2>/dev/null)

target/bin/nvlist: $(sources)
	@tests/build program nvlist

target/staticlib/libnvram_c.a: $(sources)
	@tests/build library nvram_c

prefix = $(call quoted,$(value PREFIX))
to = $(call quoted,$(value DESTDIR))$(prefix)
version := $(shell sed -n 's/^.define NVRAM_VERSION "\(.*\)"/\1/p' include/nvram.h)

install: target/bin/nvlist target/staticlib/libnvram_c.a
	@case $(prefix) in /*) ;; *) echo 'make install: PREFIX must begin with /' >&2; exit 1 ;; esac
	@{ printf 'prefix=%s\n' $(prefix); sed 's/@VERSION@/$(version)/' include/nvram.pc.in; } >target/nvram.pc
	@install -d $(to)/bin $(to)/include $(to)/lib/pkgconfig $(to)/share/man/man1 $(to)/share/man/man3
	@install -m 755 target/bin/nvlist $(to)/bin
	@install -m 644 include/nvram.h $(to)/include
	@install -m 644 target/staticlib/libnvram_c.a $(to)/lib
	@install -m 644 target/nvram.pc $(to)/lib/pkgconfig
	@install -m 644 docs/man/nvlist.1 $(to)/share/man/man1
	@install -m 644 docs/man/nvram.3 $(to)/share/man/man3

.PHONY: help list test lib install bench fmt
