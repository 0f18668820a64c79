# make run             maps the sample contacts with the sample mailmap, before any proof;
#                      make run MAILMAP=FILE CONTACTS=FILE: others
# make build           proves and builds the programs
# make test            proves and builds all that is shipped, and runs all tests
# make gate            proves all crates and their tests, and tries the mutants; only what changed since the last gate
#                      on this machine, and the crates above it
# make cases SEED=1    makes the stored cases of the tests again
# make lib             the libraries for C
# make extension       the extension module for Python, in python/gix_mailmap
# make wheel           a wheel of the package for Python, in dist
# make install         installs the programs, their manual pages and what bash completes, the libraries, their header
#                      and pkg-config file, the package for Python, the crate for Rust, and pages, under PREFIX
# make uninstall       removes these
# make dist, make deb  a tarball and Debian packages, in dist, for machines without the toolchain
# make vendor DIR=..   copies the library's crates into another repository
#
# build, lib, wheel, dist and deb take ARCH=aarch64: the same for that processor, by gcc's cross compiler.
#
# Targets are rebuilt only if something that they are made from has changed; packaging/prove.py decides that for crates.
PREFIX ?= /usr/local
BINDIR ?= $(PREFIX)/bin
INCLUDEDIR ?= $(PREFIX)/include
LIBDIR ?= $(PREFIX)/lib
MANDIR ?= $(PREFIX)/share/man
DOCDIR ?= $(PREFIX)/share/doc/gix_mailmap
COMPLETIONSDIR ?= $(PREFIX)/share/bash-completion/completions
# the folders of the package for Python and of the crate for Rust
PYTHONDIR ?= $(PREFIX)/share/gix_mailmap/python
RUSTDIR ?= $(PREFIX)/share/gix_mailmap/rust

# The names of folders are passed to the shell and to sed without quotes. So they may have no spaces and no character
# that is special there: `make uninstall` with DESTDIR='/x/a b' would remove /x/a.
READ = & | ; < > ( ) * ? [ { } ' " ` \ $$ \#
refused = $(strip $(word 2,x$(1)x) $(filter ~%,$(1)) $(foreach character,$(READ),$(findstring $(character),$(1))))
NAMED = DESTDIR PREFIX BINDIR INCLUDEDIR LIBDIR MANDIR DOCDIR COMPLETIONSDIR PYTHONDIR RUSTDIR DIST
$(foreach name,$(NAMED),$(if $(call refused,$($(name))),\
    $(error $(name) has a space or one of $(READ), or begins with ~: $($(name)))))

# The processor that is built for. What is made for another one than x86-64 is in folders of its own.
ARCH ?= x86_64
ifeq ($(ARCH),x86_64)
MADE = out
else ifeq ($(ARCH),aarch64)
MADE = out/aarch64
CROSS = aarch64-linux-gnu-
$(foreach tool,CC=gcc LD=ld AR=ar,$(if $(filter default undefined,$(origin $(word 1,$(subst =, ,$(tool))))),\
    $(eval $(word 1,$(subst =, ,$(tool))) = $(CROSS)$(word 2,$(subst =, ,$(tool))))))
else
$(error ARCH is x86_64 or aarch64, and not $(ARCH))
endif
OBJCOPY ?= $(CROSS)objcopy

# the version of all that is shipped
VERSION := $(shell cat VERSION)
# The number of the shared library's binary interface. A program runs with any library that has the number it was linked
# with. So raise it with each change after which linked programs would no longer run.
ABI = 1

PROGRAMS = mailmap_check mailmap_shortlog mailmap_verify
OBJECTS = $(foreach program,$(PROGRAMS),crates/$(program)/$(MADE)/$(program).o)
# The programs, linked with the C library of the system, and as files that need none. LINK says which are installed.
dynamic = $(foreach program,$(PROGRAMS),crates/$(program)/$(MADE)/$(program))
static = $(foreach program,$(PROGRAMS),crates/$(program)/$(MADE)/static/$(program))
LINK ?= static
$(if $(filter-out static dynamic,$(LINK)),$(error LINK is static or dynamic, and not $(LINK)))
# the libraries for C
LIB = crates/gix_mailmap_c/$(MADE)
PROVED = $(LIB)/libgix_mailmap_c.a
# What the toolchain's code calls of the toolchain's C library: the heap, and all that programs call. For x86-64 the
# toolchain has it, for others c has it.
KIT = $(dir $(shell rt doc))c
HEAP = $(if $(CROSS),$(LIB)/kit_heap.o,$(KIT)/liblibc_c.a)
SYSTEM = $(if $(CROSS),$(LIB)/kit_system.o,$(KIT)/libos_c.a) $(HEAP)
OWN = $(if $(CROSS),$(SYSTEM))
# the shared library: its name, the one that the loader looks for, and the one that the linker looks for
SHARED = libgix_mailmap.so.$(VERSION)
SONAME = libgix_mailmap.so.$(ABI)
LINKED = libgix_mailmap.so

.PHONY: build run test gate cases proved vendor install install_lib uninstall lib extension which_python wheel dist \
    deb always
PROVE = packaging/prove.py
# proves crates, and compiles what was proved
COMPILED = $(PROVE) $(1)$(if $(CROSS), && packaging/compile.py $(ARCH) $(1))
build: $(static) $(dynamic)

# For x86-64, rt also links what it has compiled.
$(OBJECTS) $(if $(CROSS),,$(dynamic)) &: always
	$(call COMPILED,$(PROGRAMS))

$(static): $(OBJECTS) $(OWN) Makefile
	mkdir -p $(@D)
	$(CC) -static -s -o $@ $(patsubst %/static/,%/,$(dir $@))$(@F).o $(SYSTEM) $(LDFLAGS)

$(if $(CROSS),$(dynamic)): $(OBJECTS) $(OWN) Makefile
	$(CC) -s -o $@ $@.o $(SYSTEM) $(LDFLAGS)

$(LIB)/kit_%.o: c/kit_%.c
	mkdir -p $(@D)
	$(CC) -std=gnu11 -O2 -fPIC -Wall -Wextra -Wpedantic -Werror $(CPPFLAGS) $(CFLAGS) -fno-lto -c $< -o $@

# all that the tests need: the programs, also mailmap_dump, which prints in hex, and out_of_memory, which makes the
# library's calls, and the proved functions for C
proved: $(OWN)
	$(call COMPILED,$(PROGRAMS) mailmap_dump gix_mailmap_c $(if $(CROSS),,out_of_memory))
	$(if $(CROSS),$(CC) -static -s -o crates/mailmap_dump/$(MADE)/mailmap_dump crates/mailmap_dump/$(MADE)/mailmap_dump.o \
	    $(SYSTEM))

# The names of the files are read from the environment, where make puts them unchanged.
export MAILMAP ?= sample/mailmap
export CONTACTS ?= sample/contacts
run:
	@echo 'Compiling mailmap_check, which takes up to a minute. Nothing is proved yet: make build proves and builds it.'
	@mailmap=$$(realpath -- "$$MAILMAP") && contacts=$$(realpath -- "$$CONTACTS") && cd crates/mailmap_check && \
	    rt try --data mailmap="$$mailmap" -- mailmap < "$$contacts"

lib: $(LIB)/c/libgix_mailmap.a $(LIB)/c/$(SHARED)

# the proved functions
$(PROVED): always
	$(call COMPILED,gix_mailmap_c)

# The static library: the proved functions, what they need of the toolchain, and the functions that wrap them, in one
# object that exports only the functions of the header. CPPFLAGS, CFLAGS and LDFLAGS follow the flags that are set here,
# except for -fno-lto: with -flto, which distributions set, calls.o would also have code for the linker's plugin. The
# plugin would use that code and leave out the rest of the object, which is the proved functions.
$(LIB)/c/libgix_mailmap.a: $(PROVED) $(OWN) $(wildcard c/*) include/gix_mailmap.h include/gix_mailmap.map
	rm -rf $(LIB)/c && mkdir $(LIB)/c
	$(CC) -std=c11 -O2 -fPIC -Wall -Wextra -Wpedantic -Werror -Iinclude $(CPPFLAGS) $(CFLAGS) -fno-lto \
	    -c c/gix_mailmap.c -o $(LIB)/c/calls.o
	$(LD) -r -o $(LIB)/c/gix_mailmap.o $(LIB)/c/calls.o $(PROVED) $(HEAP)
	sed -n 's/^ *\(gix_mailmap_[a-z_]*\);$$/\1/p' include/gix_mailmap.map > $(LIB)/c/shown
	$(OBJCOPY) --keep-global-symbols=$(LIB)/c/shown $(LIB)/c/gix_mailmap.o
	$(AR) rcsD $@ $(LIB)/c/gix_mailmap.o

# The shared library, made from the static one; ABI is above. Its other names are hard links: rt stops at symbolic ones.
$(LIB)/c/$(SHARED): $(LIB)/c/libgix_mailmap.a include/gix_mailmap.map VERSION Makefile
	rm -f $(LIB)/c/$(LINKED)*
	$(CC) -shared -o $@ -Wl,-soname,$(SONAME) -Wl,--version-script,include/gix_mailmap.map \
	    -Wl,--whole-archive $< -Wl,--no-whole-archive $(CFLAGS) $(LDFLAGS) -fno-lto
	ln $@ $(LIB)/c/$(SONAME)
	ln $@ $(LIB)/c/$(LINKED)

# The Python that builds the package: the first of these that has setuptools and wheel. Any later one runs it.
PYTHON ?= $(firstword $(foreach python,python3 /usr/bin/python3,$(shell $(python) -c 'import setuptools, wheel' \
    2> /dev/null && echo $(python))) python3)
SETUP = GIX_MAILMAP_LIBRARY=$(LIB)/c/libgix_mailmap.a GIX_MAILMAP_ARCH=$(ARCH) PYTHONPATH= PYTHONDONTWRITEBYTECODE= \
    $(if $(CROSS),CC='$(CC)' LDSHARED='$(CC) -shared') $(PYTHON)

which_python:
	@echo $(PYTHON)

# the package for Python: its extension module, which has the static library in it
EXTENSION = $(if $(CROSS),$(LIB)/)python/gix_mailmap/_native.abi3.so
extension: $(EXTENSION)
$(EXTENSION): python/gix_mailmap/_native.c setup.py include/gix_mailmap.h $(LIB)/c/libgix_mailmap.a
	$(SETUP) setup.py --quiet build_ext $(if $(CROSS),--build-lib $(LIB)/python,--inplace) --force

# what `pip wheel` builds, without pip
WHEEL = umask 022 && SOURCE_DATE_EPOCH=$(SOURCE_DATE_EPOCH) $(SETUP) -c \
    'import sys; from setuptools import build_meta; build_meta.build_wheel(sys.argv[1])' > /dev/null

wheel: build lib
	mkdir -p $(DIST)
	$(WHEEL) $(DIST)

test:
	tests/all.py

gate:
	tests/rt.sh ci

SEED ?= 1
cases:
	tests/cases.sh $(SEED)

# The name of the folder is read from the environment, where make puts it unchanged.
vendor:
	@packaging/vendor.py "$$DIR"

# An installed file with the same bytes isn't written again.
install: build lib extension
	mkdir -p $(DESTDIR)$(BINDIR) $(DESTDIR)$(MANDIR)/man1
	install -C -m 755 $($(LINK)) $(DESTDIR)$(BINDIR)
	install -C -m 644 $(PAGES) $(DESTDIR)$(MANDIR)/man1
	mkdir -p $(DESTDIR)$(COMPLETIONSDIR) $(DESTDIR)$(DOCDIR)
	install -C -m 644 $(COMPLETIONS) $(DESTDIR)$(COMPLETIONSDIR)
	install -C -m 644 $(DOCUMENTS) $(DESTDIR)$(DOCDIR)
	$(MAKE) install_lib

PAGES = man/mailmap_check.1 man/mailmap_shortlog.1 man/mailmap_verify.1
COMPLETIONS = completions/mailmap_shortlog completions/mailmap_verify
DOCUMENTS = docs/C.md docs/RUST.md docs/VERIFY.md
PACKAGE = python/gix_mailmap/py.typed $(wildcard python/gix_mailmap/*.py python/gix_mailmap/*.pyi)
CRATE = rust/gix_mailmap/Cargo.toml rust/gix_mailmap/build.rs
MODULES = $(wildcard rust/gix_mailmap/src/*.rs)
# a folder as the pkg-config file has it: relative to the prefix, if it is below that
BELOW = $(patsubst $(PREFIX)/%,$${prefix}/%,$(1))

# the pkg-config file, and the metadata that Python's own tools read
FOR_PKG_CONFIG = sed -e 's|@PREFIX@|$(PREFIX)|' -e 's|@INCLUDEDIR@|$(call BELOW,$(INCLUDEDIR))|' \
    -e 's|@LIBDIR@|$(call BELOW,$(LIBDIR))|' -e 's|@VERSION@|$(VERSION)|' include/gix_mailmap.pc.in
INFO = gix_mailmap-$(VERSION).dist-info
METADATA = sed -e 's|@VERSION@|$(VERSION)|' packaging/METADATA.in
# installs the output of a command as a file; installs a link, if it isn't there yet
install_printed = made=$$(mktemp) && $(1) > $$made && install -C -m 644 $$made $(2) && rm $$made
install_link = [ "$$(readlink $(2))" = "$(1)" ] || ln -sf $(1) $(2)

# installs what `make lib extension` has built
install_lib:
	mkdir -p $(DESTDIR)$(INCLUDEDIR) $(DESTDIR)$(LIBDIR)/pkgconfig
	mkdir -p $(DESTDIR)$(PYTHONDIR)/gix_mailmap $(DESTDIR)$(PYTHONDIR)/$(INFO)
	install -C -m 644 include/gix_mailmap.h $(DESTDIR)$(INCLUDEDIR)
	install -C -m 644 $(LIB)/c/libgix_mailmap.a $(DESTDIR)$(LIBDIR)
	install -C -m 755 $(LIB)/c/$(SHARED) $(DESTDIR)$(LIBDIR)
	$(call install_link,$(SHARED),$(DESTDIR)$(LIBDIR)/$(SONAME))
	$(call install_link,$(SONAME),$(DESTDIR)$(LIBDIR)/$(LINKED))
	$(call install_printed,$(FOR_PKG_CONFIG),$(DESTDIR)$(LIBDIR)/pkgconfig/gix_mailmap.pc)
	install -C -m 644 $(PACKAGE) $(DESTDIR)$(PYTHONDIR)/gix_mailmap
	install -C -m 755 $(EXTENSION) $(DESTDIR)$(PYTHONDIR)/gix_mailmap
	$(call install_printed,$(METADATA),$(DESTDIR)$(PYTHONDIR)/$(INFO)/METADATA)
	mkdir -p $(DESTDIR)$(RUSTDIR)/gix_mailmap/src
	install -C -m 644 $(CRATE) $(DESTDIR)$(RUSTDIR)/gix_mailmap
	install -C -m 644 $(MODULES) $(DESTDIR)$(RUSTDIR)/gix_mailmap/src

# Folders that others may use, such as bin, stay.
uninstall:
	rm -f $(addprefix $(DESTDIR)$(BINDIR)/,$(PROGRAMS))
	rm -f $(addprefix $(DESTDIR)$(MANDIR)/man1/,$(notdir $(PAGES)))
	rm -f $(addprefix $(DESTDIR)$(COMPLETIONSDIR)/,$(notdir $(COMPLETIONS)))
	rm -f $(addprefix $(DESTDIR)$(DOCDIR)/,$(notdir $(DOCUMENTS)))
	rm -f $(DESTDIR)$(INCLUDEDIR)/gix_mailmap.h
	rm -f $(addprefix $(DESTDIR)$(LIBDIR)/,libgix_mailmap.a $(SHARED) $(SONAME) $(LINKED) pkgconfig/gix_mailmap.pc)
	rm -f $(addprefix $(DESTDIR)$(PYTHONDIR)/gix_mailmap/,$(notdir $(PACKAGE) $(EXTENSION)))
	rm -rf $(DESTDIR)$(PYTHONDIR)/gix_mailmap/__pycache__
	rm -f $(DESTDIR)$(PYTHONDIR)/$(INFO)/METADATA
	rm -f $(addprefix $(DESTDIR)$(RUSTDIR)/,$(patsubst rust/%,%,$(CRATE) $(MODULES)))
	for folder in $(PYTHONDIR)/gix_mailmap $(PYTHONDIR)/$(INFO) $(PREFIX)/share/gix_mailmap/python \
	    $(RUSTDIR)/gix_mailmap/src $(RUSTDIR)/gix_mailmap $(PREFIX)/share/gix_mailmap/rust \
	    $(PREFIX)/share/gix_mailmap $(DOCDIR); do \
	    [ ! -d $(DESTDIR)$$folder ] || rmdir --ignore-fail-on-non-empty $(DESTDIR)$$folder; done

# Packages are reproducible: all files in them have the same time, and root owns them.
DIST ?= dist
SOURCE_DATE_EPOCH ?= 315532800
TARBALL = gix_mailmap-$(VERSION)-linux-$(ARCH)
# the oldest version of glibc that the libraries run with, and the processor that all of it needs
GLIBC = $(shell grep -aoh 'GLIBC_2\.[0-9]*' $(LIB)/c/$(SHARED) $(EXTENSION) | sort -V | tail -n 1 | cut -d _ -f 2)
PROCESSOR = $(if $(CROSS),aarch64,x86-64 of the level x86-64-v2 (with SSE4.2))
FILLED = sed -e 's|@VERSION@|$(VERSION)|' -e 's|@GLIBC@|$(GLIBC)|' -e 's|@PROCESSOR@|$(PROCESSOR)|'

dist: build lib extension
	rm -rf $(DIST)/$(TARBALL)
	$(MAKE) install DESTDIR=$(DIST)/$(TARBALL) PREFIX= BINDIR=/bin INCLUDEDIR=/include LIBDIR=/lib MANDIR=/share/man \
	    DOCDIR=/share/doc/gix_mailmap COMPLETIONSDIR=/share/bash-completion/completions \
	    PYTHONDIR=/share/gix_mailmap/python RUSTDIR=/share/gix_mailmap/rust
	$(WHEEL) $(DIST)/$(TARBALL)
	install -m 755 packaging/install.sh $(DIST)/$(TARBALL)
	install -m 644 LICENSE $(DIST)/$(TARBALL)
	$(FILLED) packaging/INSTALL.in > $(DIST)/$(TARBALL)/INSTALL
	tar -C $(DIST) --format=gnu --sort=name --mtime=@$(SOURCE_DATE_EPOCH) --owner=root:0 --group=root:0 \
	    --mode=u=rwX,go=rX -I 'gzip -9n' -cf $(DIST)/$(TARBALL).tar.gz $(TARBALL)
	rm -rf $(DIST)/$(TARBALL)

# dpkg-buildpackage writes into the parent of the folder that it is called in. So that folder is in DIST, with a copy of
# debian, whose rules call make install. MAINTAINER replaces the maintainer of debian/control.
DEBIAN = $(DIST)/gix-mailmap-$(VERSION)
MAINTAINER ?=
# escaped for sed and for the shell
ESCAPED = $(subst ','\'',$(subst |,\|,$(subst &,\&,$(subst \,\\,$(value MAINTAINER)))))

deb: build lib extension
	$(if $(shell command -v dh 2> /dev/null),,$(error make deb: no debhelper here: apt install debhelper dh-python))
	$(if $(shell dpkg-checkbuilddeps debian/control 2>&1),$(error make deb: a build dependency is missing: apt build-dep .))
	rm -rf $(DEBIAN)
	mkdir -p $(DEBIAN)
	cp -R debian $(DEBIAN)
	[ -z '$(ESCAPED)' ] || sed -i -e 's|^Maintainer: .*|Maintainer: $(ESCAPED)|' -e 's|^ -- .*>  | -- $(ESCAPED)  |' \
	    $(DEBIAN)/debian/control $(DEBIAN)/debian/changelog
	top="$$(pwd)" && cd $(DEBIAN) && TOP="$$top" env -u MAKEFLAGS -u MFLAGS dpkg-buildpackage --build=binary --no-sign \
	    $(if $(CROSS),--host-arch=arm64 --no-check-builddeps)
	rm -rf $(DEBIAN)
