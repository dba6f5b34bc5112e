# Builds and installs the library and the command: ./sheet and tools/install do it, and say what they need.
PREFIX ?= /usr/local
DESTDIR ?=
export PREFIX DESTDIR

all:
	./sheet --version

install:
	bash tools/install

uninstall:
	bash tools/install --uninstall

check:
	bash .ci/run

.PHONY: all install uninstall check
