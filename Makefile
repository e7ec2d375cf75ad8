# make                      builds the program and the library's archive: host/build
# make install PREFIX=DIR   installs them, with the header, a file for pkg-config and the manual page, below DIR; /usr/local where none is
#                           named. DESTDIR is put before it, for packages
# make test                 tries the program: host/test
#
# CFLAGS is heeded, and CC where it is set: host/build says how.

PREFIX ?= /usr/local
DESTDIR ?=

# Make has a CC of its own, which is not meant.
ifneq ($(origin CC),default)
export CC
endif
export CFLAGS

.PHONY: all install test

all:
	host/build

install: all
	host/install "$(PREFIX)" "$(DESTDIR)"

test:
	host/test
