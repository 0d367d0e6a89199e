# make                builds all programs into bin/
# make help           lists the targets

PROGRAMS = gdbm_dump gdbm_load gdbmtool
PREFIX ?= /usr/local
DB ?= crates/gdbm_dump/data/a.gdbm

# Where `make install` takes the programs from, and where it puts what below $(DESTDIR)$(PREFIX).
BIN ?= bin
PAGES = share/man/man1
BASH_FILES = share/bash-completion/completions
ZSH_FILES = share/zsh/site-functions
FISH_FILES = share/fish/vendor_completions.d
ROOT = $(DESTDIR)$(PREFIX)

all: $(PROGRAMS:%=bin/%)

sources = $(shell find crates -path '*/out' -prune -o -type f \( -name '*.rt' -o -name '*.antt' \) -print) crates.txt

# The program is proved and linked anew, and only then copied. What the check and the link said stays in bin/NAME.check.log
# and bin/NAME.link.log. A run of the program with no words, by which it is linked, may end with any status.
bin/%: $(sources)
	@mkdir -p bin
	@rm -f crates/$*/out/$* $@
	@(cd crates/$* && rt check) >bin/$*.check.log 2>&1 || { status=$$?; grep -E 'error|no proof' bin/$*.check.log; \
	  echo "make: the check of $* ended with status $$status: see bin/$*.check.log" >&2; exit 1; }
	@(cd crates/$* && rt run) >bin/$*.link.log 2>&1 </dev/null; status=$$?; \
	  [ -x crates/$*/out/$* ] || { tail -n 5 bin/$*.link.log; \
	  echo "make: $* was not linked (status $$status): see bin/$*.link.log" >&2; exit 1; }
	@cp crates/$*/out/$* $@

dump: bin/gdbm_dump
	@bin/gdbm_dump "$(DB)"

check:
	rt ci

# ---- for those who change the crates: make prove CRATE=gd_store

try:
	cd "crates/$(CRATE)" && rt try --test

prove:
	cd "crates/$(CRATE)" && rt check

test:
	cd "crates/$(CRATE)" && rt check --test && rt test

edits:
	rt must-fail "$(CRATE)"

more-edits:
	tests/edits.sh $(CRATE)

gate:
	rt ci "$(CRATE)"

help:
	@echo 'make                 builds the programs into bin/'
	@echo 'make dump DB=FILE    prints the dump of a database file'
	@echo 'make install PREFIX=/usr/local DESTDIR=   builds and installs the programs, their pages and completions'
	@echo 'make install-files   the same of what stands in bin/, and builds nothing'
	@echo 'make uninstall PREFIX=/usr/local DESTDIR=   removes what install put there'
	@echo 'make check           the gate: proofs, wrong bodies, tests, programs'
	@echo 'make clean           removes bin/'
	@echo 'For one crate, as CRATE=gd_store:'
	@echo 'make try             runs its tests before any proof'
	@echo 'make prove           proves it'
	@echo 'make test            proves and runs its tests'
	@echo 'make edits           tries the wrong bodies that its prover has to refuse'
	@echo 'make more-edits      tries those for which the gate has no time (all crates without CRATE)'
	@echo 'make gate            the gate of it and of the crates below it, on a copy'

install: all
	@$(MAKE) --no-print-directory install-files

install-files:
	install -d "$(ROOT)/bin" "$(ROOT)/$(PAGES)" "$(ROOT)/$(BASH_FILES)" "$(ROOT)/$(ZSH_FILES)" "$(ROOT)/$(FISH_FILES)"
	install -m 755 $(PROGRAMS:%="$(BIN)/%") "$(ROOT)/bin"
	install -m 644 $(PROGRAMS:%=man/%.1) "$(ROOT)/$(PAGES)"
	install -m 644 $(PROGRAMS:%=completions/bash/%) "$(ROOT)/$(BASH_FILES)"
	install -m 644 $(PROGRAMS:%=completions/zsh/_%) "$(ROOT)/$(ZSH_FILES)"
	install -m 644 $(PROGRAMS:%=completions/fish/%.fish) "$(ROOT)/$(FISH_FILES)"

# Folders stay.
uninstall:
	rm -f $(PROGRAMS:%="$(ROOT)/bin/%") $(PROGRAMS:%="$(ROOT)/$(PAGES)/%.1")
	rm -f $(PROGRAMS:%="$(ROOT)/$(BASH_FILES)/%") $(PROGRAMS:%="$(ROOT)/$(ZSH_FILES)/_%")
	rm -f $(PROGRAMS:%="$(ROOT)/$(FISH_FILES)/%.fish")

clean:
	rm -rf bin

.PHONY: all dump check install install-files uninstall clean try prove test edits more-edits gate help
