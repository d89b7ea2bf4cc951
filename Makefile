# Installs the release:
#
#   make install [PREFIX=/usr/local] [LIBDIR=$(PREFIX)/lib] [DESTDIR=]
#   make install-libass, with the same words: libass.so.9 of c/libass, in a folder where no program looks by itself
#   make uninstall, with the same words, of both
#
# It takes a shell, and python3 for the manual pages; install-libass a C compiler and libass's header.

PREFIX = /usr/local
BINDIR = $(PREFIX)/bin
LIBDIR = $(PREFIX)/lib
INCLUDEDIR = $(PREFIX)/include
DATADIR = $(PREFIX)/share
DESTDIR =

VERSION := $(shell cat VERSION)
INTERFACE := $(firstword $(subst ., ,$(VERSION)))

bin = $(DESTDIR)$(BINDIR)
lib = $(DESTDIR)$(LIBDIR)
include = $(DESTDIR)$(INCLUDEDIR)
data = $(DESTDIR)$(DATADIR)

DOCS = LICENSE CHANGELOG.md docs/PROGRAM.md docs/REPORTS.md docs/EMBEDDING-C.md
EXAMPLES = examples/*.ass examples/*.bdf examples/*.ttf examples/*.py examples/*.sh examples/*.sbatch c/demo.c c/files.c c/files.h c/ass_images.c c/ass_images.h

all:
	@echo 'There is nothing to build: release/ has the program and the library. Try: make install'

install:
	@grep -qx "code $$(./vimalorua --sum)" release/SOURCES || \
	    { echo 'release/ is missing or of other sources: tools/release make makes it' >&2; exit 1; }
	cd release && sha256sum --check --quiet SHA256SUMS
	install -d $(bin) $(lib)/vimalorua $(lib)/pkgconfig $(include) $(data)/man/man1 $(data)/man/man3
	install -d $(data)/bash-completion/completions $(data)/doc/vimalorua/examples
	install -m 755 release/vimalorua $(lib)/vimalorua/vimalorua
	sed -e 's|^installed=.*|installed=$(LIBDIR)/vimalorua/vimalorua|' \
	    vimalorua > $(bin)/vimalorua
	chmod 755 $(bin)/vimalorua
	install -m 644 release/vimalorua.h $(include)
	install -m 644 release/libvimalorua.a release/libvimalorua.so.$(INTERFACE) $(lib)
	ln -sf libvimalorua.so.$(INTERFACE) $(lib)/libvimalorua.so
	sed -e 's|@PREFIX@|$(PREFIX)|' -e 's|@LIBDIR@|$(LIBDIR)|' -e 's|@INCLUDEDIR@|$(INCLUDEDIR)|' \
	    -e 's|@VERSION@|$(VERSION)|' packaging/vimalorua.pc.in > $(lib)/pkgconfig/vimalorua.pc
	python3 packaging/manual.py | gzip -9n > $(data)/man/man1/vimalorua.1.gz
	python3 packaging/library_manual.py | gzip -9n > $(data)/man/man3/vimalorua.3.gz
	for name in $$(python3 packaging/library_manual.py --names); do \
	    ln -sf vimalorua.3.gz $(data)/man/man3/$$name.3.gz || exit 1; done
	install -m 644 packaging/vimalorua.bash $(data)/bash-completion/completions/vimalorua
	install -m 644 $(DOCS) $(data)/doc/vimalorua
	install -m 644 $(EXAMPLES) $(data)/doc/vimalorua/examples
	[ -n '$(DESTDIR)' ] || [ "$$(id -u)" -ne 0 ] || PATH="$$PATH:/usr/sbin:/sbin" ldconfig

install-libass:
	$(MAKE) -C c/libass
	install -d $(lib)/vimalorua/libass
	install -m 644 out/libass/libass.so.9 $(lib)/vimalorua/libass

uninstall:
	rm -rf $(lib)/vimalorua $(data)/doc/vimalorua
	rm -f $(bin)/vimalorua $(include)/vimalorua.h $(lib)/libvimalorua.a $(lib)/libvimalorua.so
	rm -f $(lib)/libvimalorua.so.$(INTERFACE) $(lib)/pkgconfig/vimalorua.pc $(data)/man/man1/vimalorua.1.gz
	rm -f $(data)/man/man3/vimalorua.3.gz $(data)/man/man3/vimalorua_*.3.gz
	rm -f $(data)/bash-completion/completions/vimalorua
	[ -n '$(DESTDIR)' ] || [ "$$(id -u)" -ne 0 ] || PATH="$$PATH:/usr/sbin:/sbin" ldconfig

test:
	./test

.PHONY: all install install-libass uninstall test
