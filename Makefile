# make            proves the program and what it stands on, says how far it is, and builds ./a2shop
# make demo       the quick look: the program on samples, compiled with checks at run time, unproved and not kept
# make tour       builds the proved program, and runs each of its commands on samples
# make test       runs the gate (the proofs from nothing, the must-fail edits), all tests, and the end-to-end tests
# make assure     tries the further edits, crates/*/assure, that the prover must refuse; each run of the gate tries a share; with
#                 CRATES="NAME .." all edits of these crates
# make install    copies the program that was built, its manual page and the completions of the shells to $(PREFIX), and proves nothing
# make dist       packs the program that was built with what belongs to it, as a2shop-VERSION-linux-ARCH.tar.gz, and proves nothing
# make bench      measures the program beside plain programs of the same work; no part of the tests
# make clean      deletes the program, what was packed, and what the prover has left

PREFIX ?= /usr/local
SOURCES := $(shell bash tests/files | tr '\0' '\n' | grep -E '^(crates/|crates\.txt$$|HANDLES$$)')

.PHONY: all demo tour test assure install dist bench clean

all: a2shop

# A run of the gate leaves the program too.
a2shop: $(SOURCES)
	@echo "proving the program and what it stands on; build.log has what the prover says"
	@python3 tests/progress.py build.log bash tests/gate program || { status=$$?; tail -n 40 build.log; exit $$status; }
	@echo "./a2shop is proved and built"

demo:
	@python3 tests/demo.py

tour: a2shop
	@bash tests/tour

test:
	bash tests/run

assure:
	bash tests/gate assure $(CRATES)

install:
	@test -x a2shop || { echo "there is no ./a2shop to install: run make first"; exit 1; }
	install -D -m 755 a2shop $(DESTDIR)$(PREFIX)/bin/a2shop
	install -D -m 644 man/a2shop.1 $(DESTDIR)$(PREFIX)/share/man/man1/a2shop.1
	install -D -m 644 completions/a2shop.bash $(DESTDIR)$(PREFIX)/share/bash-completion/completions/a2shop
	install -D -m 644 completions/_a2shop $(DESTDIR)$(PREFIX)/share/zsh/site-functions/_a2shop
	install -D -m 644 completions/a2shop.fish $(DESTDIR)$(PREFIX)/share/fish/vendor_completions.d/a2shop.fish

dist:
	@bash tools/dist

bench: a2shop
	bash bench/run

clean:
	rm -rf a2shop a2shop-*.tar.gz build.log crates/*/out bench/out
