# make install PREFIX=/usr/local: the library for C, with its header and a pkg-config file (tools/install --help). rt builds all else.
PREFIX ?= /usr/local

install:
	@tools/install "$(PREFIX)"

.PHONY: install
