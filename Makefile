PREFIX ?= /usr/local
bindir = $(PREFIX)/bin
includedir = $(PREFIX)/include
libdir = $(PREFIX)/lib
datadir = $(PREFIX)/share
mandir = $(datadir)/man
pkgconfigdir = $(libdir)/pkgconfig
pythondir = $(libdir)/kerbcanopy
bashcompletiondir = $(datadir)/bash-completion/completions
zshcompletiondir = $(datadir)/zsh/site-functions

# The version is that of host/Cargo.toml; tests hold all others against it. Its first two numbers are in the shared library's name.
VERSION := $(shell sed -n 's/^version = "\(.*\)"/\1/p' host/Cargo.toml)
SONAME := libkerbcanopy.so.$(basename $(VERSION))
SHARED := target/shared/libkerbcanopy.so.$(VERSION)

MINUTES ?= 10
ARCHIVE = target/staticlib/libkerbcanopy.a
COMMAND = host/target/release/kerbcanopy
HOST = --release --offline --locked --manifest-path host/Cargo.toml --target-dir host/target
# The crates that the library is made of, each behind those that it uses.
CRATES := $(shell awk -F '[: ]+' '{ uses[$$1] = $$0; name[NR] = $$1 } END { need["kerbcanopy_c"] = 1; \
    for (i = NR; i; i--) if (need[name[i]]) { n = split(uses[name[i]], u); for (j = 2; j <= n; j++) need[u[j]] = 1 } \
    for (i = 1; i <= NR; i++) if (need[name[i]] && name[i] != "kerbcanopy_c") print name[i] }' crates.txt)
PROVED := crates.txt .ci/library $(shell find crates -path '*/out' -prune -o \( -name '*.rt' -o -name '*.antt' \) -print)
# What the command is built from; a test of it changes nothing.
COMMANDED := host/Cargo.toml host/Cargo.lock $(shell find host/binding host/cli -type f -not -path '*/tests/*')

PLACE = DESTDIR='$(DESTDIR)' version='$(VERSION)' prefix='$(PREFIX)' bindir='$(bindir)' includedir='$(includedir)' \
    libdir='$(libdir)' mandir='$(mandir)' pkgconfigdir='$(pkgconfigdir)' pythondir='$(pythondir)' \
    bashcompletiondir='$(bashcompletiondir)' zshcompletiondir='$(zshcompletiondir)' host/install/place

.PHONY: help run test bench fuzz memcheck shared picture install uninstall clean library command

help: ## this list
	@awk -F ':.*## ' '/^[a-z]+:.*## / { printf "make %-9s %s\n", $$1, $$2 }' Makefile

run: command ## the command on the samples: a record read, moved and damaged
	@PATH="$(CURDIR)/host/target/release:$$PATH" samples/show.sh

test: ## the gate, which proves and tests everything
	.ci/run

bench: library ## the library and the second implementation, timed side by side, as docs/bench.txt and docs/bench.svg
	cargo run $(HOST) --package bench -- --plot docs/bench.svg > target/bench.txt
	@cp target/bench.txt docs/bench.txt && cat docs/bench.txt

fuzz: library ## the differential test over fresh seeds on every core, for MINUTES (10)
	cargo run $(HOST) --package differential -- --minutes $(MINUTES)

memcheck: library ## the differential test under valgrind, every buffer exactly as long as what it holds
	@command -v valgrind > /dev/null || apt-get install -y valgrind
	cargo build $(HOST) --package differential
	valgrind --quiet --error-exitcode=9 host/target/release/differential --exact

shared: $(SHARED) ## the shared library, target/shared/libkerbcanopy.so
	@:

picture: ## the crates by layer, docs/crates.svg, out of crates.txt
	@mkdir -p target
	@python3 host/picture/crates.py > target/crates.svg && cp target/crates.svg docs/crates.svg

install: command shared ## libraries, header, command, man page, completion and Python module, below PREFIX (/usr/local)
	@$(PLACE) put

uninstall: ## takes away what install put below the same PREFIX
	@$(PLACE) take

clean: ## takes away all that was built
	rm -rf target host/target crates/*/out

library: $(ARCHIVE)

command: $(COMMAND)

# rt proves again only what has changed, and builds only what is proved. What it says in full is in target/library.log.
$(ARCHIVE): $(PROVED)
	@mkdir -p target
	@: > target/library.log
	@for crate in $(CRATES); do \
	    echo "proving $$crate" >&2; \
	    (cd crates/$$crate && rt check) >> target/library.log 2>&1 || { cat target/library.log >&2; exit 1; }; \
	done
	@echo "proving kerbcanopy_c, and building the library" >&2
	@.ci/library >> target/library.log 2>&1 || { cat target/library.log >&2; exit 1; }
	@touch -c $(ARCHIVE)

# Built only where something is newer, so that a root without cargo can install what somebody else built.
$(COMMAND): $(ARCHIVE) $(COMMANDED)
	@cargo build $(HOST) --quiet --package cli
	@touch $(COMMAND)

$(SHARED): $(ARCHIVE) host/install/exports.map
	@mkdir -p $(@D)
	@gcc -shared -Wl,-soname,$(SONAME) -Wl,--version-script=host/install/exports.map -Wl,--no-undefined -Wl,-z,now \
	    -Wl,--whole-archive $(ARCHIVE) -Wl,--no-whole-archive -o $@
	@ln -sfn $(@F) $(@D)/$(SONAME)
	@ln -sfn $(SONAME) $(@D)/libkerbcanopy.so
