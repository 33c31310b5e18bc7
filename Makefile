# `make try` formats the README's example at once, with nothing proved; `make` proves the crates and builds the programs
# as bin/tffmt, bin/tfrules, bin/tffmt-all, bin/tfrules-all and bin/tfls, `make bin/tffmt` what that one stands on alone;
# `make test` runs the whole gate; `make install PREFIX=FOLDER` puts the programs, the scripts around them, their man
# pages, completions and examples below the folder; `make dist` packs the same as a release, into dist. `make
# check-around` needs no kit: it tests scripts, documents and settings on installed programs.
.PHONY: all try test check-around install uninstall dist clean FORCE

PREFIX = /usr/local
DESTDIR =

# A crate that is a program is installed under its name, with `-` for `_`, but for the benchmark's.
PROGRAMS := $(subst _,-,$(filter-out workloads,$(patsubst crates/%/src/main.rt,%,$(wildcard crates/*/src/main.rt))))
SCRIPTS := $(patsubst contrib/%,%,$(wildcard contrib/tffmt-* contrib/tfrules-*))
# The name of an earlier script, which stays for one release, has no man page and no completions.
COMMANDS = $(PROGRAMS) $(filter-out tfrules-modules,$(SCRIPTS))
EXAMPLES := pre-commit-config.yaml pre-commit-wheel.yaml treefmt.toml $(sort $(patsubst contrib/%,%,$(shell \
  find contrib/ci contrib/editors contrib/emacs contrib/vim -type f)))
BUILT := $(addprefix bin/,$(PROGRAMS))
SOURCES := $(shell find crates -name out -prune -o -type f -print) crates.txt
BIN = $(DESTDIR)$(PREFIX)/bin
MAN = $(DESTDIR)$(PREFIX)/share/man/man1
DOC = $(DESTDIR)$(PREFIX)/share/doc/tffmt
BASH = $(DESTDIR)$(PREFIX)/share/bash-completion/completions
ZSH = $(DESTDIR)$(PREFIX)/share/zsh/site-functions
FISH = $(DESTDIR)$(PREFIX)/share/fish/vendor_completions.d

# What a command needs is looked for before anything else is done, so that one line says what is missing.
NEEDS_PYTHON = @python3 -c 'import sys; sys.exit(sys.version_info < (3, 8))' 2>/dev/null || \
  { echo 'make: there is no python3 of version 3.8 or later on the path' >&2; exit 1; }
NEEDS_KIT = @command -v rt >/dev/null 2>&1 || { echo 'make: there is no rt on the path: the proofs need the' \
  'Rattle kit; CONTRIBUTING.md says which' >&2; exit 1; }

all: bin/programs

# All programs are built by one call; the file says that they were. Where one is missing, they are again.
bin/programs: $(SOURCES) $(if $(filter-out $(wildcard $(BUILT)),$(BUILT)),FORCE)
	$(NEEDS_PYTHON)
	$(NEEDS_KIT)
	@./tools/prove $(PROGRAMS)
	@echo $(PROGRAMS) >$@

$(BUILT): $(SOURCES)
	$(NEEDS_PYTHON)
	$(NEEDS_KIT)
	@./tools/prove $(notdir $@)

try:
	$(NEEDS_PYTHON)
	$(NEEDS_KIT)
	@./tools/try

test:
	$(NEEDS_PYTHON)
	$(NEEDS_KIT)
	./tests/gate

check-around:
	$(NEEDS_PYTHON)
	@./tools/check-around

# A release is linked from the objects of the programs, which are made again where they aren't there as noted.
dist: bin/programs
	@python3 tools/build.py || ./tools/prove $(PROGRAMS)
	@./tools/dist

install: bin/programs
	@mkdir -p "$(BIN)" 2>/dev/null && [ -w "$(BIN)" ] || { echo \
	  "make: $(BIN) can't be written; PREFIX=FOLDER installs elsewhere" >&2; exit 1; }
	install -d "$(BIN)" "$(MAN)" "$(DOC)/docs" "$(DOC)/bench" "$(BASH)" "$(ZSH)" "$(FISH)"
	install -m 755 $(BUILT) "$(BIN)"
	install -m 755 $(addprefix contrib/,$(SCRIPTS)) "$(BIN)"
	install -m 644 $(patsubst %,man/%.1,$(COMMANDS)) "$(MAN)"
	install -m 644 VERSION README.md CONTRIBUTING.md CHANGELOG.md "$(DOC)"
	install -m 644 $(wildcard docs/*.md docs/*.svg) "$(DOC)/docs"
	install -m 644 bench/HISTORY.md "$(DOC)/bench"
	for file in $(EXAMPLES); do install -D -m 644 "contrib/$$file" "$(DOC)/examples/$$file" || exit 1; done
	install -m 644 contrib/completions/_tffmt "$(ZSH)"
	for name in $(COMMANDS); do \
	  install -m 644 contrib/completions/tffmt.bash "$(BASH)/$$name" && \
	  install -m 644 contrib/completions/tffmt.fish "$(FISH)/$$name.fish" || exit 1; done
	[ -n "$(DESTDIR)" ] || sh tools/where-shells-look "$(BASH)" "$(ZSH)" "$(FISH)"

uninstall:
	for name in $(PROGRAMS) $(SCRIPTS); do \
	  rm -f "$(BIN)/$$name" "$(MAN)/$$name.1" "$(BASH)/$$name" "$(FISH)/$$name.fish" || exit 1; done
	rm -f "$(ZSH)/_tffmt"
	rm -rf "$(DOC)"

clean:
	rm -rf bin dist crates/*/out
