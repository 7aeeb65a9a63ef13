# make                                     prints this
# make install PREFIX=/usr/local DESTDIR=  installs the programs, the tools yak-run, yak-seeds,
#                                          yak-explore and yak-record, mqbench, the libraries and
#                                          headers for C, the manual, the pages, and completion for bash,
#                                          zsh and fish
# make uninstall PREFIX=/usr/local         removes what install has installed
# make bench                               builds lib/mqbench, which measures calls
# make page                                writes playground.html, which runs scripts in a browser
# make dist MACHINE=x86_64                 writes dist/yakyrombe-VERSION-linux-MACHINE.tar.gz
# make deb MACHINE=x86_64                  writes Debian packages into dist
# make clean                               removes what make has built, but not the proved libraries
#
# BINDIR, LIBDIR, PRELOADDIR, LIBEXECDIR, INCLUDEDIR, MANDIR, DOCDIR, DATADIR, COMPLETIONSDIR, ZSHDIR and
# FISHDIR are as usual. The proved files have to be built before: ./test builds all of them. With
# PROGRAMS= no program is installed, and only checks/c_library has to be run before. MACHINE=aarch64
# takes a cross compiler.
CC ?= cc
INSTALL ?= install
CFLAGS ?= -O2 -g
LDFLAGS ?=
PREFIX ?= /usr/local
BINDIR ?= $(PREFIX)/bin
LIBDIR ?= $(PREFIX)/lib
PRELOADDIR ?= $(LIBDIR)/yakyrombe
LIBEXECDIR ?= $(PREFIX)/libexec
MANDIR ?= $(PREFIX)/share/man
DOCDIR ?= $(PREFIX)/share/doc/yakyrombe
COMPLETIONSDIR ?= $(PREFIX)/share/bash-completion/completions
ZSHDIR ?= $(PREFIX)/share/zsh/site-functions
FISHDIR ?= $(PREFIX)/share/fish/vendor_completions.d
DATADIR ?= $(PREFIX)/share/yakyrombe
DESTDIR ?=
MACHINE ?= x86_64
LIB ?= $(CURDIR)/lib
VERSION := $(shell cat VERSION)
PROGRAMS = mqrun mqlog
TOOLS = run seeds record
RECORDER = libyakyrombe-record.so
ARCHIVES = $(LIB)/libyakyrombe-journal.a $(LIB)/libyakyrombe.a
# The folder of the programs for another machine (tools/packing/cross), and each program.
CROSS =
program = $(if $(CROSS),$(CROSS)/$(1),crates/$(1)/out/$(1))
# The engine that tells yak-explore what to run next, if it is built.
ENGINE = $(wildcard $(call program,mqexplore))
ENGINEDIR = $(LIBEXECDIR)/yakyrombe
MANUAL = $(PROGRAMS:%=%.1) $(TOOLS:%=yak-%.1) yak-explore.1 mqbench.1
COMPLETED = mqbench $(TOOLS:%=yak-%) yak-explore
COMPLETIONS = $(filter mqlog,$(PROGRAMS)) $(COMPLETED)
# The paths from the completions for zsh and fish to that of both, and from there to those for bash.
offer_near = $(shell realpath -m --relative-to='$(1)' '$(DATADIR)/offer')
BASH_NEAR = $(shell realpath -m --relative-to='$(DATADIR)' '$(COMPLETIONSDIR)')
DOCS = $(wildcard docs/*)
EXAMPLES = $(wildcard examples/c/*.c)
JOURNALS = $(wildcard examples/journals/*.journal)
# The pages that mqlog makes from them.
PAGES = $(if $(filter mqlog,$(PROGRAMS)),$(JOURNALS:.journal=.html))
# The paths from the folder of the tools to those of the libraries.
NEAR = $(shell realpath -m --relative-to='$(BINDIR)' '$(LIBDIR)')
PRELOAD_NEAR = $(shell realpath -m --relative-to='$(BINDIR)' '$(PRELOADDIR)')
ENGINE_NEAR = $(shell realpath -m --relative-to='$(BINDIR)' '$(ENGINEDIR)')

help:
	@sed -n '/^#/!q;s/^# \{0,1\}//p' Makefile

$(foreach it,$(PROGRAMS),$(call program,$(it))):
	@echo "$@ is not there: run ./test, or (cd crates/$(@F) && rt run -- --help < stdin)" >&2 && false

$(LIB)/$(RECORDER): tools/recorder/record.c
	@mkdir -p $(@D)
	$(CC) $(CFLAGS) $(LDFLAGS) -shared -fPIC -Wl,-soname,$(RECORDER) -o $@ $< -ldl -lrt

# The benchmark, by the handles of yakyrombe.h.
$(LIB)/mqbench: $(wildcard tools/bench/*.[ch]) $(ARCHIVES)
	$(CC) $(CFLAGS) $(LDFLAGS) -std=gnu11 -Wall -Wextra -Iinclude \
	  -DYAK_BENCH_VERSION='"$(VERSION)"' tools/bench/*.c $(ARCHIVES) -lpthread -lm -o $@

$(ARCHIVES):
	$(MAKE) -C c $@ LIB='$(LIB)'

install: $(foreach it,$(PROGRAMS),$(call program,$(it))) $(LIB)/$(RECORDER)
	$(MAKE) -C c install LIB='$(LIB)'
	$(MAKE) $(LIB)/mqbench LIB='$(LIB)'
	$(INSTALL) -d $(DESTDIR)$(BINDIR) $(DESTDIR)$(PRELOADDIR) $(DESTDIR)$(MANDIR)/man1 \
	  $(DESTDIR)$(DOCDIR)/docs $(DESTDIR)$(DOCDIR)/examples/c $(DESTDIR)$(COMPLETIONSDIR) \
	  $(DESTDIR)$(DOCDIR)/examples/journals
	for program in $(foreach it,$(PROGRAMS),$(call program,$(it))); do \
	  $(INSTALL) -m 755 $$program $(DESTDIR)$(BINDIR) || exit 1; \
	done
	$(INSTALL) -m 755 $(LIB)/mqbench $(DESTDIR)$(BINDIR)
	for tool in $(TOOLS); do \
	  sed -e 's|^libraries=.*|libraries=$$here/$(NEAR)|' -e 's|^version=.*|version=$(VERSION)|' \
	    -e 's|^preloaded=.*|preloaded=$$here/$(PRELOAD_NEAR)|' \
	    -e 's|^PRELOADED = .*|PRELOADED = f"{HERE}/$(PRELOAD_NEAR)"|' \
	    -e 's|^VERSION = .*|VERSION = "$(VERSION)"|' -e '/^# `make install` writes/d' \
	    tools/$$tool > $(DESTDIR)$(BINDIR)/yak-$$tool && \
	  chmod 755 $(DESTDIR)$(BINDIR)/yak-$$tool || exit 1; \
	done
	$(CC) $(CFLAGS) $(LDFLAGS) -std=gnu11 -Ic -DYAK_VERSION='"$(VERSION)"' -DYAK_NEAR='"$(PRELOAD_NEAR)"' \
	  -DYAK_ENGINE_NEAR='"$(ENGINE_NEAR)"' tools/explorer/*.c -o $(DESTDIR)$(BINDIR)/yak-explore
	for engine in $(ENGINE); do \
	  $(INSTALL) -d $(DESTDIR)$(ENGINEDIR) && \
	  $(INSTALL) -m 755 $$engine $(DESTDIR)$(ENGINEDIR) || exit 1; \
	done
	$(INSTALL) -m 644 $(LIB)/$(RECORDER) $(DESTDIR)$(PRELOADDIR)
	$(INSTALL) -m 644 $(MANUAL:%=man/%) $(DESTDIR)$(MANDIR)/man1
	$(INSTALL) -m 644 README.md CHANGELOG.md $(DESTDIR)$(DOCDIR)
	$(INSTALL) -m 644 $(DOCS) $(DESTDIR)$(DOCDIR)/docs
	$(INSTALL) -m 644 $(EXAMPLES) $(DESTDIR)$(DOCDIR)/examples/c
	$(INSTALL) -m 644 $(JOURNALS) $(JOURNALS:.journal=.svg) $(DESTDIR)$(DOCDIR)/examples/journals
	for page in $(PAGES); do \
	  crates/mqlog/out/mqlog view "$${page%.html}.journal" > $(DESTDIR)$(DOCDIR)/$$page && \
	  chmod 644 $(DESTDIR)$(DOCDIR)/$$page || exit 1; \
	done
	for program in $(filter mqlog,$(PROGRAMS)); do \
	  $(INSTALL) -m 644 tools/completions/$$program $(DESTDIR)$(COMPLETIONSDIR) || exit 1; \
	done
	for program in $(COMPLETED); do \
	  $(INSTALL) -m 644 tools/completions/tools $(DESTDIR)$(COMPLETIONSDIR)/$$program || exit 1; \
	done
	$(INSTALL) -d $(DESTDIR)$(ZSHDIR) $(DESTDIR)$(FISHDIR) $(DESTDIR)$(DATADIR)
	sed 's|^completions=.*|completions=$$here/$(BASH_NEAR)|; /^# `make install` writes/d' \
	  tools/completions/offer > $(DESTDIR)$(DATADIR)/offer
	chmod 755 $(DESTDIR)$(DATADIR)/offer
	sed 's|@OFFER@|$(call offer_near,$(ZSHDIR))|' tools/completions/zsh > $(DESTDIR)$(ZSHDIR)/_yakyrombe
	chmod 644 $(DESTDIR)$(ZSHDIR)/_yakyrombe
	for program in $(COMPLETIONS); do \
	  sed -e "s|@PROGRAM@|$$program|" -e 's|@OFFER@|$(call offer_near,$(FISHDIR))|' \
	    tools/completions/fish > $(DESTDIR)$(FISHDIR)/$$program.fish && \
	  chmod 644 $(DESTDIR)$(FISHDIR)/$$program.fish || exit 1; \
	done
	@[ -n "$(DESTDIR)" ] || echo "run ldconfig once, so that programs find what is in $(LIBDIR)"

uninstall:
	rm -f $(PROGRAMS:%=$(DESTDIR)$(BINDIR)/%) $(TOOLS:%=$(DESTDIR)$(BINDIR)/yak-%) \
	  $(DESTDIR)$(BINDIR)/mqbench \
	  $(DESTDIR)$(BINDIR)/yak-explore $(DESTDIR)$(ENGINEDIR)/mqexplore \
	  $(DESTDIR)$(PRELOADDIR)/$(RECORDER) $(MANUAL:%=$(DESTDIR)$(MANDIR)/man1/%) \
	  $(COMPLETIONS:%=$(DESTDIR)$(COMPLETIONSDIR)/%) $(COMPLETIONS:%=$(DESTDIR)$(FISHDIR)/%.fish) \
	  $(DESTDIR)$(ZSHDIR)/_yakyrombe $(DESTDIR)$(DATADIR)/offer \
	  $(DESTDIR)$(DOCDIR)/README.md $(DESTDIR)$(DOCDIR)/CHANGELOG.md \
	  $(DOCS:%=$(DESTDIR)$(DOCDIR)/%) $(EXAMPLES:%=$(DESTDIR)$(DOCDIR)/%) \
	  $(JOURNALS:%=$(DESTDIR)$(DOCDIR)/%) $(JOURNALS:%.journal=$(DESTDIR)$(DOCDIR)/%.svg) \
	  $(JOURNALS:%.journal=$(DESTDIR)$(DOCDIR)/%.html)
	for folder in $(DESTDIR)$(DOCDIR)/docs $(DESTDIR)$(DOCDIR)/examples/c \
	  $(DESTDIR)$(DOCDIR)/examples/journals $(DESTDIR)$(DOCDIR)/examples $(DESTDIR)$(DOCDIR) $(DESTDIR)$(ENGINEDIR); do \
	  [ ! -d $$folder ] || rmdir --ignore-fail-on-non-empty $$folder; \
	done
	$(MAKE) -C c uninstall LIB='$(LIB)'

bench: $(LIB)/mqbench

page:
	tools/playground/build

dist:
	MACHINE='$(MACHINE)' tools/dist

deb:
	MACHINE='$(MACHINE)' tools/deb

clean:
	$(MAKE) -C c clean LIB='$(LIB)'
	rm -rf $(LIB)/$(RECORDER) $(LIB)/mqbench $(LIB)/playground $(LIB)/aarch64 \
	  playground.html dist

.PHONY: help install uninstall bench page dist deb clean
