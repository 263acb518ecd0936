# The library for C and the command: `make` proves them and builds target/libkrakobran.a, the shared object beside it, the command's
# programs and the examples in C; this needs the Rattle kit and a C compiler. `make test` runs all of it and says what it leaves
# out for want of a C++ compiler, Python, pkg-config, CMake or cargo. `make install` puts all below PREFIX: library, header, pkg-config
# and CMake files, the command with its programs, its man page and its completion. `make dist` packs the same, to be unpacked anywhere.
# `make cross TARGET=..` compiles the archive for another processor, and for each of tools/cross/targets without TARGET; `make cross-test`
# runs all exports on those that have an emulator here (docs/C.md).
# `make layout` checks that C and Rust lay out every struct alike, `make diff` compares the library with an independent
# implementation, and `make time` measures both; these three need cargo, which fetches nothing.

CC ?= cc
CXX ?= c++
CFLAGS ?= -std=c11 -O2 -Wall -Wextra -Wpedantic
CXXFLAGS ?= -std=c++11 -O2 -Wall -Wextra -Wpedantic
PREFIX ?= /usr/local
LIBDIR ?= $(PREFIX)/lib
INCLUDEDIR ?= $(PREFIX)/include
BINDIR ?= $(PREFIX)/bin
LIBEXECDIR ?= $(PREFIX)/libexec
DATADIR ?= $(PREFIX)/share
MANDIR ?= $(DATADIR)/man
PYTHONDIR ?= $(DATADIR)/krakobran/python
BASHCOMPDIR ?= $(DATADIR)/bash-completion/completions
ZSHCOMPDIR ?= $(DATADIR)/zsh/site-functions
CARGO = cd bench && CARGO_NET_OFFLINE=true cargo run -q --release -j1 --

HEADER = include/krakobran.h
LIBRARY = target/libkrakobran.a
SHARED = target/libkrakobran.so
VERSION := $(shell sed -n 's/^.define KRAKOBRAN_VERSION "\(.*\)"$$/\1/p' $(HEADER))
MAJOR = $(firstword $(subst ., ,$(VERSION)))
# Before 1.0.0 each minor version may have another form, so it has a shared object of its own name.
SOVERSION = $(if $(filter 0,$(MAJOR)),0.$(word 2,$(subst ., ,$(VERSION))),$(MAJOR))
EXAMPLES = target/feed target/figures
TOOLS = cmd_report cmd_table cmd_refusal cmd_summary cmd_import cmd_export cmd_check cmd_worse cmd_picture cmd_follow
PROGRAMS = $(TOOLS:%=target/bin/%)
# What the kit keeps of a crate stands in its folder out.
SOURCES := crates.txt $(shell find crates -name out -prune -o -type f -print)
DIST = krakobran-$(VERSION)-x86_64

# FROM TO: the path of TO, seen from FROM, so that an installed tree can be moved.
relative = $(shell realpath -m --relative-to='$(1)' '$(2)')

# What the pkg-config file calls the prefix; that of `make dist` is found from the file itself.
PCPREFIX = $(PREFIX)

# One target at a time: rt takes the processors itself, and two runs of it would prove the same crates. So rt runs under the lock that
# the command takes when it builds a program, where there is flock.
.NOTPARALLEL:
LOCKED := $(if $(shell command -v flock),flock -o target/lock)

all: $(LIBRARY) $(SHARED) $(EXAMPLES) $(PROGRAMS)

target:
	mkdir -p $@

# One run proves and builds all programs. Each library is proved once.
$(PROGRAMS): target/programs
target/programs: $(SOURCES) tools/program.sh | target
	$(LOCKED) tools/program.sh $(TOOLS)
	touch $(PROGRAMS) $@

$(LIBRARY): $(filter %.txt %.rt %.antt,$(SOURCES)) | target
	cd crates/capi && $(LOCKED:target/%=../../target/%) rt lib
	cp crates/capi/out/libcapi.a $@

# The archive's code does not depend on where it stands (-z text would refuse it), so the shared object is made of it.
$(SHARED): $(LIBRARY)
	$(CC) $(LDFLAGS) -shared -Wl,-soname,libkrakobran.so.$(SOVERSION) -Wl,-z,text,-z,defs -o $@ -Wl,--whole-archive $(LIBRARY) \
	    -Wl,--no-whole-archive

target/%: examples/%.c $(HEADER) $(LIBRARY)
	$(CC) $(CPPFLAGS) $(CFLAGS) $(LDFLAGS) -Iinclude -o $@ $< $(LIBRARY)

target/%: examples/%.cpp $(HEADER) $(LIBRARY)
	$(CXX) $(CPPFLAGS) $(CXXFLAGS) $(LDFLAGS) -Iinclude -o $@ $< $(LIBRARY)

target/%: tests/%.c $(HEADER) $(LIBRARY)
	$(CC) $(CPPFLAGS) $(CFLAGS) $(LDFLAGS) -Iinclude -o $@ $< $(LIBRARY)

target/krakobran.pc: krakobran.pc.in $(HEADER) Makefile FORCE | target
	sed -e 's|@PREFIX@|$(PCPREFIX)|' -e 's|@LIBDIR@|$(LIBDIR:$(PREFIX)/%=$${prefix}/%)|' \
	    -e 's|@INCLUDEDIR@|$(INCLUDEDIR:$(PREFIX)/%=$${prefix}/%)|' -e 's|@VERSION@|$(VERSION)|' krakobran.pc.in > $@

CMAKEDIR = $(LIBDIR)/cmake/krakobran

target/%.cmake: tools/%.cmake.in $(HEADER) Makefile FORCE | target
	sed -e 's|@LIBDIR@|$(call relative,$(CMAKEDIR),$(LIBDIR))|' -e 's|@INCLUDEDIR@|$(call relative,$(CMAKEDIR),$(INCLUDEDIR))|' \
	    -e 's|@VERSION@|$(VERSION)|' -e 's|@MAJOR@|$(MAJOR)|' -e 's|@SOVERSION@|$(SOVERSION)|' $< > $@

CMAKEFILES = target/krakobran-config.cmake target/krakobran-config-version.cmake

# The command as it is installed: it finds its programs from its own folder.
target/krakobran: krakobran $(HEADER) Makefile FORCE | target
	sed -e 's|^installed=$$|installed=$(call relative,$(BINDIR),$(LIBEXECDIR)/krakobran)|' -e 's|^version=$$|version=$(VERSION)|' \
	    krakobran > $@

install: install-library install-command

install-library: $(LIBRARY) $(SHARED) target/krakobran.pc $(CMAKEFILES)
	install -d '$(DESTDIR)$(INCLUDEDIR)' '$(DESTDIR)$(LIBDIR)/pkgconfig' '$(DESTDIR)$(CMAKEDIR)'
	install -m 644 $(HEADER) '$(DESTDIR)$(INCLUDEDIR)/krakobran.h'
	install -d '$(DESTDIR)$(PYTHONDIR)'
	install -m 644 bindings/python/krakobran.py '$(DESTDIR)$(PYTHONDIR)/krakobran.py'
	install -m 644 $(LIBRARY) '$(DESTDIR)$(LIBDIR)/libkrakobran.a'
	install -m 755 $(SHARED) '$(DESTDIR)$(LIBDIR)/libkrakobran.so.$(VERSION)'
	ln -sf libkrakobran.so.$(VERSION) '$(DESTDIR)$(LIBDIR)/libkrakobran.so.$(SOVERSION)'
	ln -sf libkrakobran.so.$(SOVERSION) '$(DESTDIR)$(LIBDIR)/libkrakobran.so'
	install -m 644 target/krakobran.pc '$(DESTDIR)$(LIBDIR)/pkgconfig/krakobran.pc'
	install -m 644 $(CMAKEFILES) '$(DESTDIR)$(CMAKEDIR)'

install-command: $(PROGRAMS) target/krakobran
	install -d '$(DESTDIR)$(BINDIR)' '$(DESTDIR)$(LIBEXECDIR)/krakobran' '$(DESTDIR)$(MANDIR)/man1' '$(DESTDIR)$(BASHCOMPDIR)' \
	    '$(DESTDIR)$(ZSHCOMPDIR)'
	install -m 755 target/krakobran '$(DESTDIR)$(BINDIR)/krakobran'
	install -m 755 $(PROGRAMS) '$(DESTDIR)$(LIBEXECDIR)/krakobran'
	install -m 644 docs/krakobran.txt '$(DESTDIR)$(LIBEXECDIR)/krakobran/krakobran.txt'
	install -m 644 crates/cmd_report/stdin '$(DESTDIR)$(LIBEXECDIR)/krakobran/example.sample'
	install -m 644 docs/krakobran.1 '$(DESTDIR)$(MANDIR)/man1/krakobran.1'
	install -m 644 tools/completion.bash '$(DESTDIR)$(BASHCOMPDIR)/krakobran'
	install -m 644 tools/completion.zsh '$(DESTDIR)$(ZSHCOMPDIR)/_krakobran'

uninstall:
	rm -f '$(DESTDIR)$(INCLUDEDIR)/krakobran.h' '$(DESTDIR)$(LIBDIR)/libkrakobran.a' \
	    '$(DESTDIR)$(LIBDIR)/libkrakobran.so.$(VERSION)' '$(DESTDIR)$(LIBDIR)/libkrakobran.so.$(SOVERSION)' \
	    '$(DESTDIR)$(LIBDIR)/libkrakobran.so' '$(DESTDIR)$(LIBDIR)/pkgconfig/krakobran.pc' \
	    '$(DESTDIR)$(BINDIR)/krakobran' '$(DESTDIR)$(MANDIR)/man1/krakobran.1' '$(DESTDIR)$(BASHCOMPDIR)/krakobran' \
	    '$(DESTDIR)$(ZSHCOMPDIR)/_krakobran' '$(DESTDIR)$(PYTHONDIR)/krakobran.py'
	rm -rf '$(DESTDIR)$(CMAKEDIR)' '$(DESTDIR)$(LIBEXECDIR)/krakobran'

# The LLVM module of the archive, kept in a second run of the kit; then each processor takes a second or two.
MODULE = target/cross/module.ll
TARGET ?= $(shell sed -n 's/^\([a-z][^ ]*\) .*/\1/p' tools/cross/targets)
OPT ?= -O3

$(MODULE): $(filter %.txt %.rt %.antt,$(SOURCES)) tools/cross/module.sh | target
	$(LOCKED) tools/cross/module.sh target/cross

cross: $(MODULE)
	tests/exports.sh $(MODULE)
	@for target in $(TARGET); do tools/cross/compile.sh target/cross $$target $(OPT) || exit; done

cross-test: $(MODULE) $(LIBRARY)
	tests/exports.sh $(MODULE)
	CC='$(CC)' LEVEL=$(OPT) REQUIRED=$(REQUIRED) tests/portable.sh target/cross

# All that is installed, in one folder that can be unpacked anywhere; owner and times do not depend on who packs it.
dist: $(LIBRARY) $(SHARED) $(PROGRAMS)
	rm -rf target/dist
	$(MAKE) -s install DESTDIR='$(CURDIR)/target/dist/$(DIST)' PREFIX=/krakobran PCPREFIX='$$$${pcfiledir}/../..' \
	    LIBDIR=/krakobran/lib INCLUDEDIR=/krakobran/include BINDIR=/krakobran/bin LIBEXECDIR=/krakobran/libexec \
	    DATADIR=/krakobran/share MANDIR=/krakobran/share/man PYTHONDIR=/krakobran/share/krakobran/python \
	    BASHCOMPDIR=/krakobran/share/bash-completion/completions ZSHCOMPDIR=/krakobran/share/zsh/site-functions
	mv target/dist/$(DIST)/krakobran target/dist/tree
	rmdir target/dist/$(DIST)
	mv target/dist/tree target/dist/$(DIST)
	cd target/dist && tar --owner=0 --group=0 --numeric-owner --sort=name --mtime=@0 -cf - $(DIST) | gzip -n > $(DIST).tar.gz
	mv target/dist/$(DIST).tar.gz target/$(DIST).tar.gz

# What is built for the tests: the example in C++ only where there is a compiler for it.
test: $(EXAMPLES) $(SHARED) $(PROGRAMS) target/interface $(if $(shell command -v $(CXX)),target/vectors)
	tests/report.sh
	tests/import.sh
	tests/check.sh
	tests/command.sh
	tests/whole.sh
	tests/first.sh
	tests/follow.sh
	tests/exports.sh
	target/interface
	CC='$(CC)' CXX='$(CXX)' tests/examples.sh
	$(if $(shell command -v python3),tests/python.py,@echo 'skipped the binding for Python: python3 is not on the path')
	tests/install.sh
	$(if $(shell command -v python3),tests/picture.py,@echo 'skipped the pictures: python3 is not on the path')
	$(if $(shell command -v python3),tests/words.py,@echo 'skipped the words of the refusals: python3 is not on the path')
	$(if $(shell command -v python3),tests/theorems.py,@echo 'skipped the table of theorems: python3 is not on the path')
	$(if $(shell command -v cargo),$(MAKE) layout,@echo 'skipped the layouts in Rust: cargo is not on the path')

# The table of sizes and offsets, by the header and by the declarations that the differential test calls with.
layout: cargo target/layout $(LIBRARY)
	target/layout > target/layout.c.txt
	$(CARGO) layout > ../target/layout.rust.txt
	diff target/layout.c.txt target/layout.rust.txt
	@echo "layouts agree"

diff: cargo $(LIBRARY)
	$(CARGO) diff

time: cargo $(LIBRARY)
	$(CARGO) time

clean:
	rm -rf target bench/target crates/*/out

# Says in one line that cargo is missing, before anything is built.
cargo:
	$(if $(shell command -v cargo),,$(error cargo is needed and is not on the path))

.PHONY: all install install-library install-command uninstall dist test layout diff time cross cross-test clean cargo FORCE
