# Installs the prebuilt files of this folder. PREFIX, LIBDIR and DESTDIR are as packaging/install says; `sh packaging/install` does
# the same without make.
PREFIX ?= /usr/local
LIBDIR ?= $(PREFIX)/lib
DESTDIR ?=
install uninstall: export PREFIX := $(PREFIX)
install uninstall: export LIBDIR := $(LIBDIR)
install uninstall: export DESTDIR := $(DESTDIR)

.PHONY: help install uninstall
help: ## list the targets
	@awk -F ':.*## ' '/^[a-z]+:.*## / { printf "make %-10s %s\n", $$1, $$2 }' $(MAKEFILE_LIST)

install: ## install the programs, man pages, header, archives and tozbierdu.pc; PREFIX=/usr/local LIBDIR=PREFIX/lib DESTDIR=
	sh packaging/install

uninstall: ## remove the files that `make install`, with the same PREFIX, LIBDIR and DESTDIR, has installed
	sh packaging/install uninstall
