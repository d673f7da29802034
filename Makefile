# Builds and installs the library for C, the daemon and modemctl's program, and packs a release of them. It stands in the
# repository and in the release.
#
#   make [TARGET=aarch64-linux-gnu]     in the repository it wants the libraries (docs/C.md)
#   make install PREFIX=/usr/local [DESTDIR=..]
#   make dist GATE=FILE                 cimbaloty-VERSION.tar.gz; FILE has all that .ci/run said (release/dist)
TARGET ?=
PREFIX ?= /usr/local
DESTDIR ?=
GATE ?=
WITHOUT ?=
MACHINE := $(firstword $(subst -, ,$(TARGET)) $(shell uname -m))
RELEASED := $(wildcard $(CURDIR)/lib/$(MACHINE)/libmodem_c.a)
PASSED := TARGET=$(TARGET) PREFIX=$(PREFIX) DESTDIR=$(DESTDIR) $(RELEASED:%=LIBRARY=%)
# the program is for x86-64 alone
MODEMCTL := $(if $(filter x86_64,$(MACHINE)),$(firstword $(wildcard bin/modemctl crates/modemctl/out/modemctl)))
AT := $(DESTDIR)$(PREFIX)

all:
	$(MAKE) -C examples/c $(PASSED)
	$(MAKE) -C daemon $(PASSED)

install: all
	$(MAKE) -C examples/c install $(PASSED)
	$(MAKE) -C daemon install $(PASSED)
	$(if $(MODEMCTL),install -d $(AT)/bin $(AT)/share/man/man1)
	$(if $(MODEMCTL),install -m 755 $(MODEMCTL) $(AT)/bin/modemctl)
	$(if $(MODEMCTL),install -m 644 docs/modemctl.1 $(AT)/share/man/man1)

dist:
	release/dist "$(GATE)" $(WITHOUT)

clean:
	$(MAKE) -C examples/c clean
	$(MAKE) -C daemon clean

.PHONY: all install dist clean
