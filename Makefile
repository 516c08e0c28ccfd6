# `make help` lists the targets. PREFIX, LIBDIR and DESTDIR are for install and uninstall: see packaging/install.
PREFIX ?= /usr/local
LIBDIR ?= $(PREFIX)/lib
DESTDIR ?=
install uninstall: export PREFIX := $(PREFIX)
install uninstall: export LIBDIR := $(LIBDIR)
install uninstall: export DESTDIR := $(DESTDIR)

.DEFAULT_GOAL := all
archives := target/staticlib/libtozbierdu.a target/staticlib/libcounter.a
programs := target/bin/parts target/bin/listing target/bin/walk
manuals := target/man/price.1 target/man/desk.1 target/man/parts.1 target/man/tozbierdu.3

.PHONY: all archives programs front manuals install uninstall dist check test bench help
# Two rt at once disturb each other.
.NOTPARALLEL:

all: archives programs front manuals ## build everything: the archives, the programs, their fronts and the man pages
archives: $(archives) ## prove and build the archives for C, target/staticlib/*.a
programs: $(programs) ## prove and build the programs, target/bin/*
manuals: $(manuals) ## make the man pages, target/man/*

-include front.mk

# The files of a crate and of the crates that it needs, and their folders, whose time changes when a file goes. What rt keeps in out/ is no source.
needs = $(shell tac crates.txt | awk -F '[: ]+' -v crate=$(1) 'BEGIN { need[crate] } $$1 in need { print $$1; for (i = 2; i <= NF; i++) need[$$i] }')
sources = crates.txt $(shell find $(addprefix crates/,$(needs)) -mindepth 1 \( -name out -o -name must-fail \) -prune -o -print)
$(foreach crate,tozbierdu counter,$(eval target/staticlib/lib$(crate).a: $(call sources,$(crate)_c)))
$(foreach crate,parts listing walk,$(eval target/bin/$(crate): $(call sources,$(crate))))

# What is built gets the time at which its check began: a source that changes during the check is newer.
begin = @command -v rt >/dev/null || { echo '$@ is missing or older than its sources, and rt, which proves and builds it, is not on the path' >&2; exit 2; }; \
	mkdir -p target/begun && touch target/begun/$(@F)
end = @touch -r target/begun/$(@F) $@

# A crate is a library or an archive: the archive of crate NAME is that of crate NAME_c, which exports NAME's calls.
target/staticlib/lib%.a:
	$(begin)
	cd crates/$*_c && rt lib
	@mkdir -p $(@D) && cp crates/$*_c/out/lib$*_c.a $@.new && mv $@.new $@
	$(end)

# A program is what rt ci left in its crate, or else rt run, which proves, builds and runs it.
made = crates/$*/out/$*
target/bin/%:
	$(begin)
	@if [ ! -x $(made) ] || [ "$$(find crates/*/* crates.txt -name out -prune -o -newer $(made) -print -quit)" ]; then \
		echo 'rt run in crates/$*' && cd crates/$* && rt run </dev/null >/dev/null; fi
	@mkdir -p $(@D) && cp $(made) $@.new && mv $@.new $@
	$(end)

target/man/price.1: target/front/bin/price
target/man/desk.1: target/front/bin/desk
target/man/tozbierdu.3: include/tozbierdu.h
target/man/%: docs/pages docs/man/text.awk docs/man/help.awk docs/man/header.awk VERSION
	@mkdir -p target/man
	bash docs/pages $* >$@.new && mv $@.new $@

install: all ## install the programs, man pages, header, archives and tozbierdu.pc; PREFIX=/usr/local LIBDIR=PREFIX/lib DESTDIR=
	sh packaging/install

uninstall: ## remove the files that `make install`, with the same PREFIX, LIBDIR and DESTDIR, has installed
	sh packaging/install uninstall

dist: all ## make a tarball for machines without the toolchain, target/tozbierdu-VERSION-x86_64.tar.gz
	sh packaging/dist

check: ## run the gate: prove every crate, then test
	bash .ci/run

test: ## run the tests on what is built, without proofs
	bash .ci/run tests

bench: archives ## measure the calls beside plain C
	bash bench/run

help: ## list the targets
	@awk -F ':.*## ' '/^[a-z]+:.*## / { printf "make %-10s %s\n", $$1, $$2 }' $(MAKEFILE_LIST)
