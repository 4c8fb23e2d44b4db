# Installs the program that .ci/run proved and built, and runs what needs no prover.
#
#     make                 proves and builds the program, where that is to be done: .ci/run
#     make install         installs the program, its man page, its completions and its pages
#     make uninstall       removes what that installed
#     make check           runs tests/chain.py and tests/cli.py
#     make check-pages     runs the checks that need neither program nor prover
#
# PREFIX says where to, DESTDIR what is put before it while a package is made, and PROGRAM which program.

PREFIX = /usr/local
DESTDIR =
PROGRAM = crates/wildplan/out/wildplan
PYTHON = python3
INSTALL = install

BIN = $(DESTDIR)$(PREFIX)/bin
MAN = $(DESTDIR)$(PREFIX)/share/man/man1
BASH = $(DESTDIR)$(PREFIX)/share/bash-completion/completions
ZSH = $(DESTDIR)$(PREFIX)/share/zsh/site-functions
FISH = $(DESTDIR)$(PREFIX)/share/fish/vendor_completions.d
DOC = $(DESTDIR)$(PREFIX)/share/doc/wildplan

PAGES = README.md CHANGELOG.md SECURITY.md LICENSE-MIT LICENSE-APACHE NOTICE
SOURCES = crates.txt $(shell find crates/*/src crates/*/specs crates/*/proofs -type f)

.PHONY: all install uninstall check check-pages

all:
	.ci/run

# The program has to be that of the sources.
$(PROGRAM): $(SOURCES)
	@echo '$(PROGRAM) is not built yet, or a source is newer: .ci/run proves and builds it' >&2; exit 1

install: $(PROGRAM)
	$(INSTALL) -d '$(BIN)' '$(MAN)' '$(BASH)' '$(ZSH)' '$(FISH)' '$(DOC)/docs'
	$(INSTALL) -m 755 '$(PROGRAM)' '$(BIN)/wildplan'
	$(INSTALL) -m 644 man/wildplan.1 '$(MAN)/wildplan.1'
	$(INSTALL) -m 644 completions/wildplan.bash '$(BASH)/wildplan'
	$(INSTALL) -m 644 completions/_wildplan '$(ZSH)/_wildplan'
	$(INSTALL) -m 644 completions/wildplan.fish '$(FISH)/wildplan.fish'
	$(INSTALL) -m 644 $(PAGES) '$(DOC)'
	$(INSTALL) -m 644 docs/*.md '$(DOC)/docs'

uninstall:
	rm -f '$(BIN)/wildplan' '$(MAN)/wildplan.1' '$(BASH)/wildplan' '$(ZSH)/_wildplan' '$(FISH)/wildplan.fish'
	rm -rf '$(DOC)'

check: $(PROGRAM)
	$(PYTHON) tests/chain.py
	$(PYTHON) tests/cli.py '$(PROGRAM)'

check-pages:
	$(PYTHON) tests/chain.py
	$(PYTHON) examples/make.py --check
	$(PYTHON) tools/make_pages.py --check
	$(PYTHON) tests/pages.py
	$(PYTHON) tests/listing.py
