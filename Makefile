# Builds the library for C, shows it, compares it and measures it.
# `make help` lists what there is; docs/INTERFACE.md describes the interface.

# The archive: a copy of what `rt lib` writes in crates/acs_c, or another one, as in
#     make demo ACS_LIB=path/to/libacs.a
ACS_LIB ?= build/archive/libacs.a

PREFIX  ?= /usr/local
LIBDIR  ?= $(PREFIX)/lib
DOCDIR  ?= $(PREFIX)/share/doc/acs
MANDIR  ?= $(PREFIX)/share/man
# The version and the calls stand in the header; the pages that it names go with it.
VERSION := $(shell sed -n 's/^.define ACS_VERSION "\(.*\)"/\1/p' include/acs.h)
CALLS   := $(shell sed -n 's/^uint64_t \(acs_[a-z_]*\).*/\1/p' include/acs.h)
PAGES   := docs/INTERFACE.md docs/RULES.md

RT      ?= rt
CARGO   ?= cargo
PYTHON  ?= python3
CFLAGS  ?= -O2 -g
STRICT  := -std=c99 -Wall -Wextra -Wpedantic

# The archive is for x86-64. Elsewhere its programs are built by a cross compiler
# and run by an emulator (tools/setup_arm.sh installs both).
ARCH := $(shell uname -m)
ifeq ($(ARCH),x86_64)
  TOOLS     :=
  RUN       ?=
  CARGO_ENV :=
else
  TOOLS     := x86_64-linux-gnu-
  RUN       ?= qemu-x86_64 -L /
  CARGO_ENV  = CARGO_BUILD_TARGET=x86_64-unknown-linux-gnu \
               CARGO_TARGET_X86_64_UNKNOWN_LINUX_GNU_LINKER='$(CC)' \
               CARGO_TARGET_X86_64_UNKNOWN_LINUX_GNU_RUNNER='$(RUN)'
endif
ifeq ($(origin CC),default)
  CC := $(TOOLS)gcc
endif

# A folder stands for the archive in it.
ifneq ($(wildcard $(ACS_LIB)/libacs.a),)
  override ACS_LIB := $(ACS_LIB)/libacs.a
endif

SNAPSHOTS := examples/snapshots
IMAGES    := examples/images
INDEPENDENT := --release --offline --manifest-path independent/Cargo.toml
WITH_LIB = ACS_LIB='$(abspath $(dir $(ACS_LIB)))' $(CARGO_ENV) $(CARGO)
AGAINST = $(WITH_LIB) run $(INDEPENDENT) -p against
FAULTS := independent/target/faults
SEEDED = $(if $(SEED),--seed $(SEED)) $(if $(CASES),--cases $(CASES))

.DELETE_ON_ERROR:
.PHONY: help demo test lib install uninstall paths header example try compare faults bench corpus \
        snapshots images stack symbols clean FORCE

help:
	@echo 'make demo        build, and show Fabric F in cases of docs/RULES.md'
	@echo 'make test        the gate: prove everything, run every program (.ci/run)'
	@echo 'make lib         the archive and its header, in build/dist'
	@echo 'make install     library, header, acs.pc, manual and pages under PREFIX ($(PREFIX)); DESTDIR is honoured'
	@echo 'make uninstall   remove them'
	@echo 'make example     build examples/service.c and fill.c, and ask them about three snapshots and three images'
	@echo 'make try         ask the examples, the header, the pages and the installation all that can go wrong'
	@echo 'make header      compile acs.h and the examples strictly, as C and C++, by CC, gcc, g++ and clang'
	@echo 'make compare     the library against the independent program (SEED=S CASES=N)'
	@echo 'make faults      that the comparison notices each deliberate fault (SEED=S CASES=N)'
	@echo 'make bench       the library beside the independent program, timed'
	@echo 'make instructions  the same, counted in instructions (needs valgrind)'
	@echo 'make stack       how much stack the three calls need'
	@echo 'make symbols     what the archive defines and needs, and that it has no memory of its own'
	@echo 'make corpus      write the cases of crates/acscases anew'
	@echo 'make snapshots   write the sample snapshots anew'
	@echo 'make images      write the sample configuration spaces anew'
	@echo 'make clean       remove build/ and independent/target/'
	@echo
	@echo 'The archive is proved and built by rt, which takes some minutes the first time. Where rt is'
	@echo 'not at hand, name an archive that is there: make demo ACS_LIB=path/to/libacs.a'

# What make builds is in build/, which git leaves alone. (A crate's out/ is rt's.)
build/.gitignore:
	@mkdir -p build
	@echo '*' > $@

# ---- The archive ----

# Only the default archive is made here; another one has to be there.
ifeq ($(origin ACS_LIB),file)
$(ACS_LIB): crates.txt $(shell find crates -name out -prune -o \( -name '*.rt' -o -name '*.antt' \) -print) \
            | build/.gitignore
	@echo 'rt lib, in crates/acs_c: proves the library and writes $@; this takes a while'
	@(cd crates/acs_c && $(RT) lib) > build/archive.log 2>&1 \
	    || { tail -n 20 build/archive.log; echo 'all of it is in build/archive.log'; exit 1; }
	@tail -n 1 build/archive.log
	@install -d $(@D)
	@install -m 644 crates/acs_c/out/libacs_c.a $@
endif

lib: $(ACS_LIB) include/acs.h | build/.gitignore
	install -d build/dist/lib build/dist/include
	install -m 644 $(ACS_LIB) build/dist/lib/libacs.a
	install -m 644 include/acs.h build/dist/include/acs.h

# Paths are written into acs.pc, where a space or a sign of the shell would read as
# something else.
quoted = '$(subst ','\'',$(1))'
paths:
	@for path in $(foreach name,PREFIX LIBDIR DOCDIR MANDIR,$(call quoted,$(name)=$($(name)))); do \
	    case $${path#*=} in \
	    *[!A-Za-z0-9_./+@:,~-]* | '') \
	        echo "make install: a path may have letters, digits and _./+@:,~- only: $$path" >&2; \
	        exit 1 ;; \
	    esac; \
	done

install: paths $(ACS_LIB) include/acs.h tools/acs.pc.in docs/acs.3 $(PAGES)
	install -d '$(DESTDIR)$(LIBDIR)/pkgconfig' '$(DESTDIR)$(PREFIX)/include' \
	    '$(DESTDIR)$(DOCDIR)' '$(DESTDIR)$(MANDIR)/man3'
	install -m 644 $(ACS_LIB) '$(DESTDIR)$(LIBDIR)/libacs.a'
	install -m 644 include/acs.h '$(DESTDIR)$(PREFIX)/include/acs.h'
	install -m 644 $(PAGES) '$(DESTDIR)$(DOCDIR)'
	install -m 644 docs/acs.3 '$(DESTDIR)$(MANDIR)/man3/acs.3'
	for call in $(CALLS); do \
	    echo '.so man3/acs.3' > '$(DESTDIR)$(MANDIR)/man3/'$$call.3 || exit 1; \
	done
	sed -e 's|@PREFIX@|$(abspath $(PREFIX))|' -e 's|@LIBDIR@|$(abspath $(LIBDIR))|' \
	    -e 's|@VERSION@|$(VERSION)|' tools/acs.pc.in > '$(DESTDIR)$(LIBDIR)/pkgconfig/acs.pc'
	chmod 644 '$(DESTDIR)$(LIBDIR)/pkgconfig/acs.pc' $(CALLS:%='$(DESTDIR)$(MANDIR)/man3/%.3')

uninstall: paths
	rm -f '$(DESTDIR)$(LIBDIR)/libacs.a' '$(DESTDIR)$(PREFIX)/include/acs.h' \
	    '$(DESTDIR)$(LIBDIR)/pkgconfig/acs.pc' '$(DESTDIR)$(MANDIR)/man3/acs.3' \
	    $(CALLS:%='$(DESTDIR)$(MANDIR)/man3/%.3') \
	    $(PAGES:docs/%='$(DESTDIR)$(DOCDIR)/%')
	-rmdir '$(DESTDIR)$(DOCDIR)'

# ---- Programs in C ----

# Programs are built again where the archive, the compiler or its flags are others.
SETTING = $(ACS_LIB) $(CC) $(CPPFLAGS) $(CFLAGS) $(LDFLAGS) $(LDLIBS)
build/setting: FORCE | build/.gitignore
	@echo '$(SETTING)' | cmp -s - $@ || echo '$(SETTING)' > $@

# What the programs share, and what only the service has.
WORDS   := examples/words.c examples/query.c examples/snapshot.c
SERVICE := examples/service.c examples/arguments.c examples/evidence.c examples/sha256.c
HEADERS := include/acs.h $(wildcard examples/*.h)
COMPILE = $(CC) $(CPPFLAGS) -Iinclude -Iexamples $(STRICT) $(CFLAGS) $(LDFLAGS) -o $@ \
          $(filter %.c,$^) $(ACS_LIB) $(LDLIBS)

build/service: $(SERVICE) $(WORDS) $(HEADERS) $(ACS_LIB) build/setting
	$(COMPILE)

build/fill: examples/fill.c $(WORDS) $(HEADERS) $(ACS_LIB) build/setting
	$(COMPILE)

build/demo: examples/demo.c $(WORDS) $(HEADERS) $(ACS_LIB) build/setting
	$(COMPILE)

build/names: tools/try/names.c $(HEADERS) $(ACS_LIB) build/setting
	$(COMPILE)

# All symbols are bound at the start, so that no call pays for it with its stack.
build/stack: tools/stack.c $(WORDS) $(HEADERS) $(ACS_LIB) build/setting
	$(COMPILE) -pthread -Wl,-z,now

demo: build/demo
	@$(RUN) build/demo $(SNAPSHOTS)

example: build/service build/fill
	@echo; echo '$$ service fabric-f-17h.acs 4 write 80100000'
	@$(RUN) build/service $(SNAPSHOTS)/fabric-f-17h.acs 4 write 80100000
	@echo; echo '$$ service expired.acs 4 write 80100000'
	@$(RUN) build/service $(SNAPSHOTS)/expired.acs 4 write 80100000 || test $$? -eq 1
	@echo; echo '$$ service torn.acs 4 write 80100000'
	@$(RUN) build/service $(SNAPSHOTS)/torn.acs 4 write 80100000 || test $$? -eq 1
	@echo; echo '$$ fill downstream-port.config'
	@$(RUN) build/fill $(IMAGES)/downstream-port.config
	@echo; echo '$$ fill not-extended.config'
	@$(RUN) build/fill $(IMAGES)/not-extended.config || test $$? -eq 1
	@echo; echo '$$ fill silent.config'
	@$(RUN) build/fill $(IMAGES)/silent.config || test $$? -eq 1
	@echo; echo 'build/service --help says what else can be asked, build/fill --help what a fill is.'

# Whatever is promised to somebody who uses the library: a part for each.
try: build/service build/fill build/demo build/names
	@RUN='$(RUN)' CC='$(CC)' MAKE='$(MAKE)' ACS_LIB='$(ACS_LIB)' tools/try/run.sh $(SNAPSHOTS) $(IMAGES)

stack: build/stack
	@$(RUN) build/stack $(SNAPSHOTS) $(IMAGES)

symbols: $(ACS_LIB)
	@tools/symbols.sh $(ACS_LIB) $(TOOLS)

header:
	@tools/strict.sh '$(CC)' $(SERVICE) $(WORDS) examples/fill.c examples/demo.c tools/try/names.c

# ---- The gate, and the independent program ----

test:
	./.ci/run

compare: $(ACS_LIB)
	$(AGAINST) --bin compare -- $(SEEDED)

faults: $(ACS_LIB)
	$(CARGO) run $(INDEPENDENT) -p apply -- independent/faults independent $(FAULTS)
	$(WITH_LIB) build -q --keep-going --release --offline --manifest-path $(FAULTS)/Cargo.toml
	$(WITH_LIB) run -q --release --offline --manifest-path $(FAULTS)/Cargo.toml -- $(SEEDED)

bench: $(ACS_LIB)
	$(AGAINST) --bin bench

.PHONY: instructions
instructions: $(ACS_LIB)
	$(AGAINST) --bin instructions

corpus:
	$(CARGO) run $(INDEPENDENT) -p cases --bin corpus -- crates/acscases

snapshots:
	$(PYTHON) tools/make_snapshots.py

images:
	$(PYTHON) tools/make_images.py

clean:
	rm -rf build independent/target
