# `make` builds the library, as an archive and as a shared library of the same objects. `make install PREFIX=..` installs both with the
# header and the pkg-config file, and the command with its texts; `make uninstall` removes all of it. No library is built whose
# proof does not pass.
#
# All rules are here. For make's own it would look at each source, which takes twenty times as long.
MAKEFLAGS += --no-builtin-rules
PREFIX ?= /usr/local
libdir ?= $(PREFIX)/lib
includedir ?= $(PREFIX)/include
pkgconfigdir ?= $(libdir)/pkgconfig
INSTALL ?= install

version := $(shell sed -n 's/^#define HK_VERSION "\(.*\)"/\1/p' include/hemakuliwi.h)
library := target/staticlib/libhemakuliwi.a
# The file of the shared library, the name that programs require of the loader, and the name that the linker looks for.
shared_name := libhemakuliwi.so.$(version)
loader_name := libhemakuliwi.so.$(basename $(basename $(version)))
linker_name := libhemakuliwi.so
shared := target/staticlib/$(shared_name)
links := target/staticlib/$(loader_name) target/staticlib/$(linker_name)

.PHONY: all install install-library uninstall uninstall-library program
all: $(library) $(shared) $(links)

# The names of the sources are in a file that is newer only once one was added or deleted. `rt` keeps its work in each crate's out/.
names := target/staticlib/sources
proved_sources := crates.txt $(shell mkdir -p target/staticlib && \
	find crates \( -name must-fail -o -name out \) -prune -o \( -name '*.rt' -o -name '*.antt' \) -print | LC_ALL=C sort | tee $(names).found && \
	{ cmp -s $(names).found $(names) || cp $(names).found $(names); })

# What proves and compiles a static library in the folder of its crate, as out/libNAME.a.
STATIC_LIBRARY ?= rt lib

# Five object files, each with a lexer of its own: docs/DECISIONS.md, "Code". The library has the time at which its proof began, so that a
# source that was changed meanwhile is newer.
$(library): $(names) $(proved_sources)
	touch $@.begun
	cd crates/c_files && $(STATIC_LIBRARY)
	cd crates/c_convert && $(STATIC_LIBRARY)
	cd crates/c_pieces && $(STATIC_LIBRARY)
	cd crates/c_ends && $(STATIC_LIBRARY)
	cd crates/c_cells && $(STATIC_LIBRARY)
	cp crates/c_files/out/libc_files.a crates/c_convert/out/libc_convert.a crates/c_pieces/out/libc_pieces.a \
		crates/c_ends/out/libc_ends.a crates/c_cells/out/libc_cells.a target/staticlib
	cd target/staticlib && ar x libc_files.a && ar x libc_convert.a && ar x libc_pieces.a && ar x libc_ends.a && ar x libc_cells.a
	rm -f $@
	ar rcsD $@ target/staticlib/c_files.o target/staticlib/c_convert.o target/staticlib/c_pieces.o \
		target/staticlib/c_ends.o target/staticlib/c_cells.o
	touch -r $@.begun $@

# The objects need no relocation in their code, and the linker refuses (-z text) if that changes. Before version 1.0.0 a minor version may
# change structs while the loader's name stays: the version of the symbols is what keeps a program from a library that it doesn't fit.
symbol_version := HEMAKULIWI_$(basename $(version))
$(shared): $(library) include/hemakuliwi.h Makefile
	printf '%s { global: hk_*; local: *; };\n' $(symbol_version) >target/staticlib/libhemakuliwi.map
	$(CC) -shared -nostartfiles $(LDFLAGS) -o $@ -Wl,-soname,$(loader_name) -Wl,--version-script,target/staticlib/libhemakuliwi.map \
		-Wl,-z,text,-z,defs,-z,noexecstack,-z,relro,-z,now -Wl,--whole-archive $(library) -Wl,--no-whole-archive

$(links): $(shared)
	ln -sf $(shared_name) $@

# The program that converts standard input: `target/bin/program FROM TO`. `rt run` proves, compiles and runs it, here on what the crate has
# for that.
program: target/bin/program
target/bin/program: $(names) $(proved_sources)
	mkdir -p target/bin
	touch $@.begun
	cd crates/program && rt run -- $$(cat args) <stdin >../../$@.ran && cmp ../../$@.ran stdout
	cp crates/program/out/program $@
	touch -r $@.begun $@

# Speed beside other libraries, and the same only for the jobs that have a threshold: docs/TESTING.md. `make benchmark ARGS='FOLDER ROUNDS'`
# measures the tables of a folder; ARGS and ROUNDS may be left out.
.PHONY: benchmark thresholds
benchmark: all
	scripts/benchmark.sh $(ARGS)

thresholds: all
	scripts/benchmark.sh --thresholds $(ROUNDS)

# Comparison with the reference implementation and fuzzing, each for SECONDS: docs/TESTING.md.
.PHONY: harden
harden: all
	scripts/harden.sh $(or $(SECONDS),60) $(SEED)

# In the pkg-config file a folder below the prefix is named from it, so that a tree that was moved needs one other line.
below_prefix = $(patsubst $(PREFIX)/%,$${prefix}/%,$(1))

install: install-library
install-library: all
	$(INSTALL) -d '$(DESTDIR)$(libdir)' '$(DESTDIR)$(includedir)' '$(DESTDIR)$(pkgconfigdir)'
	$(INSTALL) -m 644 $(library) '$(DESTDIR)$(libdir)'
	$(INSTALL) -m 755 $(shared) '$(DESTDIR)$(libdir)'
	ln -sf $(shared_name) '$(DESTDIR)$(libdir)/$(loader_name)'
	ln -sf $(loader_name) '$(DESTDIR)$(libdir)/$(linker_name)'
	$(INSTALL) -m 644 include/hemakuliwi.h '$(DESTDIR)$(includedir)'
	sed -e 's|@PREFIX@|$(PREFIX)|' -e 's|@LIBDIR@|$(call below_prefix,$(libdir))|' -e 's|@VERSION@|$(version)|' \
		-e 's|@INCLUDEDIR@|$(call below_prefix,$(includedir))|' hemakuliwi.pc.in >'$(DESTDIR)$(pkgconfigdir)/hemakuliwi.pc'
	chmod 644 '$(DESTDIR)$(pkgconfigdir)/hemakuliwi.pc'

uninstall: uninstall-library
uninstall-library:
	rm -f $(patsubst %,'$(DESTDIR)$(libdir)/%',libhemakuliwi.a $(shared_name) $(loader_name) $(linker_name)) \
		'$(DESTDIR)$(includedir)/hemakuliwi.h' '$(DESTDIR)$(pkgconfigdir)/hemakuliwi.pc'

# The command: `./hemakuliwi`, which is installed with its man page and what shells complete it by. The script starts make only where a
# source is newer than its list of them; a test compares the two.
command := target/release/hemakuliwi
command_texts := rust/command/share
command_sources := $(shell find rust/command/src rust/hemakuliwi/src) rust/hemakuliwi/build.rs $(wildcard rust/*/Cargo.toml)
.PHONY: command install-command uninstall-command
command: $(command)
$(command): $(library) Cargo.toml Cargo.lock $(command_sources)
	cargo build --release --offline --quiet --target-dir target --package hemakuliwi-command
	touch $@

install: install-command
install-command: $(command)
	$(INSTALL) -d $(patsubst %,'$(DESTDIR)$(PREFIX)/%',bin share/man/man1 share/bash-completion/completions share/zsh/site-functions share/fish/vendor_completions.d)
	$(INSTALL) -m 755 $(command) '$(DESTDIR)$(PREFIX)/bin'
	$(INSTALL) -m 644 $(command_texts)/hemakuliwi.1 '$(DESTDIR)$(PREFIX)/share/man/man1'
	$(INSTALL) -m 644 $(command_texts)/hemakuliwi.bash '$(DESTDIR)$(PREFIX)/share/bash-completion/completions/hemakuliwi'
	$(INSTALL) -m 644 $(command_texts)/_hemakuliwi '$(DESTDIR)$(PREFIX)/share/zsh/site-functions'
	$(INSTALL) -m 644 $(command_texts)/hemakuliwi.fish '$(DESTDIR)$(PREFIX)/share/fish/vendor_completions.d'

uninstall: uninstall-command
uninstall-command:
	rm -f $(patsubst %,'$(DESTDIR)$(PREFIX)/%',bin/hemakuliwi share/man/man1/hemakuliwi.1 share/bash-completion/completions/hemakuliwi \
		share/zsh/site-functions/_hemakuliwi share/fish/vendor_completions.d/hemakuliwi.fish)
