# `make help` lists the targets with what they do.
.PHONY: run install install-strip uninstall deb library try quick check test bench mutants soak help

# Where `make install` puts what, by the names of the GNU coding standards, most of them in capitals
# too. DESTDIR stands before each folder.
PREFIX = /usr/local
prefix = $(PREFIX)
exec_prefix = $(prefix)
BINDIR = $(exec_prefix)/bin
bindir = $(BINDIR)
LIBDIR = $(exec_prefix)/lib
libdir = $(LIBDIR)
INCLUDEDIR = $(prefix)/include
includedir = $(INCLUDEDIR)
DATAROOTDIR = $(prefix)/share
datarootdir = $(DATAROOTDIR)
MANDIR = $(datarootdir)/man
mandir = $(MANDIR)
man1dir = $(mandir)/man1
pkgconfigdir = $(libdir)/pkgconfig
bashcompletiondir = $(datarootdir)/bash-completion/completions
# Wireshark's folder of programs that are interfaces: the one that tshark names, wherever PREFIX is.
EXTCAPDIR = $(eval EXTCAPDIR := $$(or $$(named_by_tshark),$$(libdir)/wireshark/extcap))$(EXTCAPDIR)
extcapdir = $(EXTCAPDIR)
extcap_path = ^\(Global \)\{0,1\}Extcap path:[[:space:]]*
named_by_tshark = $(shell tshark -G folders 2> /dev/null | sed -n 's|$(extcap_path)||p')
INSTALL = install
INSTALL_PROGRAM = $(INSTALL) -m 755
INSTALL_DATA = $(INSTALL) -m 644

program = $(or $(SEGRX),crates/segrx/out/segrx)
placed_program = "$(DESTDIR)$(bindir)/segrx"
placed_manual = "$(DESTDIR)$(man1dir)/segrx.1"
placed_completion = "$(DESTDIR)$(bashcompletiondir)/segrx"
folders = "$(bindir)" "$(man1dir)" "$(bashcompletiondir)" "$(extcapdir)" \
	"$(pkgconfigdir)" "$(libdir)" "$(includedir)"
extcap_program = "$(DESTDIR)$(extcapdir)" "$(bindir)/segrx"
# Where nobody has named Wireshark's folder and it can't be written, all else is installed.
without_extcap = echo "$(extcapdir) can't be written: segrx won't be in Wireshark's menu (EXTCAPDIR)"

# What C programs link, its header, and what pkg-config says of it.
library = $(or $(SEGRX_ARCHIVE),crates/segrx_c/out/libsegrx.a)
placed_library = "$(DESTDIR)$(libdir)/libsegrx.a"
placed_header = "$(DESTDIR)$(includedir)/segrx.h"
placed_package = "$(DESTDIR)$(pkgconfigdir)/segrx.pc"
# A folder's name as the right side of a substitution by sed.
in_sed = $(subst |,\|,$(subst &,\&,$(1)))
version = $$(sed -n '/^\#\# /{s///p;q}' CHANGELOG.md)

run: # proves and builds the program, left at crates/segrx/out/segrx, and the C library
	@scripts/build

install: # installs what `make` left below PREFIX, and into Wireshark's menu (EXTCAPDIR)
	@PYTHONDONTWRITEBYTECODE=1 scripts/build --check
	mkdir -p "$(DESTDIR)$(bindir)" "$(DESTDIR)$(man1dir)" "$(DESTDIR)$(bashcompletiondir)"
	mkdir -p "$(DESTDIR)$(libdir)" "$(DESTDIR)$(includedir)" "$(DESTDIR)$(pkgconfigdir)"
	$(INSTALL_PROGRAM) "$(program)" $(placed_program)
	$(INSTALL_DATA) docs/segrx.1 $(placed_manual)
	$(INSTALL_DATA) completions/segrx.bash $(placed_completion)
	$(INSTALL_DATA) "$(library)" $(placed_library)
	$(INSTALL_DATA) include/segrx.h $(placed_header)
	sed -e "s|@version@|$(version)|; s|@prefix@|$(call in_sed,$(prefix))|" \
	    -e "s|@exec_prefix@|$(call in_sed,$(exec_prefix))|; s|@libdir@|$(call in_sed,$(libdir))|" \
	    -e "s|@includedir@|$(call in_sed,$(includedir))|" packaging/segrx.pc | \
	    $(INSTALL_DATA) /dev/stdin $(placed_package)
	@mkdir -p "$(DESTDIR)$(extcapdir)" 2> /dev/null; test -w "$(DESTDIR)$(extcapdir)" || { \
		$(without_extcap); exit $(if $(filter file,$(origin EXTCAPDIR)),0,1); }; \
		scripts/extcap-program put $(extcap_program)

install-strip:
	$(MAKE) INSTALL_PROGRAM='$(INSTALL_PROGRAM) -s' install

uninstall: # removes what `make install` put below PREFIX, and folders there that are empty then
	rm -f $(placed_program) $(placed_manual) $(placed_completion)
	rm -f $(placed_library) $(placed_header) $(placed_package)
	@scripts/extcap-program remove $(extcap_program)
	@scripts/empty-folders "$(DESTDIR)" "$(prefix)" $(folders)

deb: # makes a Debian package of what `make install` installs, in out/
	@scripts/package

library: # proves and builds the C library, and looks at it from C, Rust and Python
	@scripts/c-library && scripts/hostile-c && scripts/bindings --count 1000 && scripts/put-in-place

try: # replays an example without a proof
	@scripts/try

quick: # looks at the program that was built last: the table of runs and generated inputs
	@scripts/quick

check: # before a change is handed in: format, documents, and the changed crates with their tests
	@scripts/check

test: # the whole gate: every proof from nothing, planted mistakes, tests, runs
	@scripts/test

bench: # all benches, one after the other, on a machine that is to do nothing else
	@for bench in beside_plain c capture core eight_threads engines follow losses mailbox receive receiver replay ring shards window; do echo "== $$bench"; bench/$$bench/run || exit 1; done

mutants: # tries all planted mistakes of mutants/ on copies of the work tree
	@scripts/mutants && scripts/refused-by-tests

soak: # long runs of the program, receiver and mailbox, and whole comparisons of captures
	@scripts/soak && bench/run_soak/run && bench/receive_soak/run && bench/mailbox_soak/run && scripts/plain-capture --count 1000 && scripts/hostile-captures --count 100000

help: # lists these targets
	@sed -n 's/^\([a-z]*\): # \(.*\)/make \1	\2/p' Makefile | sed 's/^make run/make/' | expand -t 16
