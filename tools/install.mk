# Installing and releasing. The version is the header's (tools/c.mk reads it). Needs what tools/c.mk needs, and tar for a release.
#
#   make shared          dist/libcrewelmarsh.so.VERSION, from the archive
#   make install         archive, shared library, header, pkg-config file, CMake package, documents, LICENSE, NOTICE and the book, under PREFIX; without python3 no book
#   make release         the same files in dist/crewelmarsh-VERSION-x86_64-linux.tar, with checksums and what they were built from
#   make install-test    all of that tried in a scratch folder with gcc, g++, pkg-config and cmake (GCC, GXX and RUNNER elsewhere than on x86-64), and archive-again (not with AGAIN=0)
#
#   make archive-again   the archive built once more from a copy of its crates in another folder, and compared (FRESH=1 proves everything there from nothing)
#
# PREFIX=/usr/local  where the files will stand; LIB=lib is the libraries' folder in it, of one part or several.
# DESTDIR=DIR        is put before PREFIX while copying, for making a package.
# ARCHIVE=PATH       takes another archive with the same entries.

PREFIX ?= /usr/local
LIB ?= lib

# Beside the archive, so that a trial of another one leaves nothing in dist/.
SHARED := $(dir $(ARCHIVE))libcrewelmarsh.so.$(VERSION)
RELEASE := $(dir $(ARCHIVE))crewelmarsh-$(VERSION)-x86_64-linux

.PHONY: shared install install-fits release install-test archive-again

# As they were given, for the scripts: make itself would take a space in them for the end of a word.
export PREFIX DESTDIR LIB

shared: $(SHARED)

# It has the archive's names and no other, and lacks nothing.
$(SHARED): $(ARCHIVE)
	$(TOOLCHAIN)/bin/ld.lld -shared -soname libcrewelmarsh.so.$(MAJOR) --gc-sections -z defs -z now -o $@ \
	    --whole-archive $(ARCHIVE) --no-whole-archive \
	    --as-needed $(LIBRARY)/libc.so.6 $(LIBRARY)/libgcc_s.so.1 $(LIBRARY)/ld-linux-x86-64.so.2

install-fits:
	@sh tools/install/fits.sh

install: install-fits $(ARCHIVE) $(SHARED)
	@sh tools/install/install.sh $(DESTDIR)$(abspath $(PREFIX)) $(abspath $(PREFIX)) $(LIB) $(VERSION) $(ARCHIVE) $(SHARED)
	@echo 'crewelmarsh $(VERSION) is in $(DESTDIR)$(abspath $(PREFIX))'

release: $(ARCHIVE) $(SHARED)
	@sh tools/install/release.sh $(RELEASE) $(VERSION) $(ARCHIVE) $(SHARED) "$$($(RT) version)"

install-test: $(ARCHIVE) $(SHARED)
	@MAKE='$(MAKE)' RT='$(RT)' ARCHIVE='$(ARCHIVE)' GCC='$(GCC)' GXX='$(GXX)' RUNNER='$(RUNNER)' sh tests/install.sh $(VERSION) $(ENTRIES)

archive-again: $(ARCHIVE)
	@RT='$(RT)' FRESH='$(FRESH)' sh tools/install/again.sh $(ARCHIVE)
