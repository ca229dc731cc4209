# Builds the program, the archive and the shared library, and installs them.
#
#     make                    builds what is missing; building proves, which takes a while the first time
#     make install            PREFIX=/usr/local, DESTDIR= (in front of all paths, for packages)
#     make uninstall
#     make check              the program's tests and every example
#     make clean              removes what make built; what is proved stays
#
# The archive has the functions of include/flowawk.h. `rt` must be on PATH.

PREFIX = /usr/local
DESTDIR =
BINDIR = $(PREFIX)/bin
INCLUDEDIR = $(PREFIX)/include
LIBDIR = $(PREFIX)/lib
MANDIR = $(PREFIX)/share/man
DOCDIR = $(PREFIX)/share/doc/flowawk

CC = cc
INSTALL = install
# the edition of the language and of images
VERSION = 1

PROGRAM = target/flowawk
# builds the program where it is missing or older than its sources
BUILD = ./flowawk -V
ARCHIVE = target/staticlib/libcapi.a
SHARED = target/libflowawk.so.$(VERSION)
PKGCONFIG = target/flowawk.pc
SOURCES = crates.txt $(wildcard crates/*/src/*.rt)

all: program $(ARCHIVE) $(SHARED)

program:
	$(BUILD)

$(ARCHIVE): $(SOURCES)
	tools/archive.sh capi

$(SHARED): $(ARCHIVE)
	$(CC) -shared -Wl,-soname,libflowawk.so.$(VERSION) -Wl,-z,defs -o $@ -Wl,--whole-archive $(ARCHIVE) -Wl,--no-whole-archive $(LDFLAGS)

install: all
	$(INSTALL) -d $(DESTDIR)$(BINDIR) $(DESTDIR)$(INCLUDEDIR) $(DESTDIR)$(LIBDIR)/pkgconfig $(DESTDIR)$(MANDIR)/man1 $(DESTDIR)$(DOCDIR)
	$(INSTALL) -m 755 $(PROGRAM) $(DESTDIR)$(BINDIR)/flowawk
	$(INSTALL) -m 644 include/flowawk.h $(DESTDIR)$(INCLUDEDIR)/flowawk.h
	$(INSTALL) -m 644 $(ARCHIVE) $(DESTDIR)$(LIBDIR)/libflowawk.a
	$(INSTALL) -m 755 $(SHARED) $(DESTDIR)$(LIBDIR)/libflowawk.so.$(VERSION)
	ln -sf libflowawk.so.$(VERSION) $(DESTDIR)$(LIBDIR)/libflowawk.so
	$(INSTALL) -m 644 man/flowawk.1 $(DESTDIR)$(MANDIR)/man1/flowawk.1
	$(INSTALL) -m 644 docs/LANGUAGE.md docs/IMAGE.md $(DESTDIR)$(DOCDIR)
	sed -e 's|@PREFIX@|$(PREFIX)|' -e 's|@LIBDIR@|$(LIBDIR)|' -e 's|@VERSION@|$(VERSION)|' flowawk.pc.in > $(PKGCONFIG)
	$(INSTALL) -m 644 $(PKGCONFIG) $(DESTDIR)$(LIBDIR)/pkgconfig/flowawk.pc

uninstall:
	rm -f $(DESTDIR)$(BINDIR)/flowawk $(DESTDIR)$(INCLUDEDIR)/flowawk.h $(DESTDIR)$(LIBDIR)/libflowawk.a
	rm -f $(DESTDIR)$(LIBDIR)/libflowawk.so $(DESTDIR)$(LIBDIR)/libflowawk.so.$(VERSION) $(DESTDIR)$(LIBDIR)/pkgconfig/flowawk.pc
	rm -f $(DESTDIR)$(MANDIR)/man1/flowawk.1 $(DESTDIR)$(DOCDIR)/LANGUAGE.md $(DESTDIR)$(DOCDIR)/IMAGE.md
	-rmdir $(DESTDIR)$(DOCDIR)

check: all
	python3 tests/cli.py
	python3 tests/examples.py
	python3 tests/install.py

clean:
	rm -f $(PROGRAM) $(ARCHIVE) $(SHARED) $(PKGCONFIG)

.PHONY: all program install uninstall check clean
