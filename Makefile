# The program is in release/, and so are the checksums of what it was proved and built of. Only `prove`, `release`, `gate`, `unproved` and
# what is tried by hand need the toolchain's command `rt`.

.PHONY: all prove release test gate unproved check bench calls refusals wrong-bodies fuzz memory unthreaded mpi-test dist
.PHONY: site clean install uninstall

sources := $(shell find crates -name out -prune -o \( -name '*.rt' -o -name '*.antt' \) -print) crates.txt HANDLES

# The program of the release where the sources are those that it was proved and built of, which takes seconds; else one that is proved and
# built of the sources that are here.
all: bin/pramc

bin/pramc: $(sources) $(wildcard release/*)
	@sh gate/program.sh

# Proves the crates of the program and builds it, whatever is there, and says whether it has the bytes of the release. What was proved on
# this machine is kept.
prove:
	python3 gate/build.py command_main bin/pramc
	python3 gate/release.py tell bin/pramc

# The same, packed into release/, with the checksums of its sources.
release:
	python3 gate/build.py command_main bin/pramc
	python3 gate/release.py write bin/pramc

# The program that is tried or installed.
PROGRAM ?= bin/pramc
# The parts of the test, all where none is named: make test PARTS="examples documents"
PARTS ?=

# What a user runs: examples, documents, drawn programs, pictures, packages, hostile use, some minutes.
test: $(PROGRAM)
	@python3 gate/test.py $(PROGRAM) $(PARTS)

# The whole, hours: the scripts over sources, every proof from nothing, every wrong body of the gate, and then the test of the program that
# this built, which is byte for byte that of the release.
gate:
	python3 gate/release.py check
	python3 gate/crates.py
	python3 gate/promises.py
	python3 gate/definitions.py
	python3 gate/walks.py
	python3 gate/gallery.py
	python3 gate/expected/references.py
	python3 gate/editors.py
	python3 gate/mpi.py
	python3 gate/scale.py
	python3 gate/build_test.py
	python3 gate/release_test.py
	python3 gate/wrong_bodies.py
	python3 crates/run_tests/unthreaded/change.py look .
	bash gate/calls.sh
	set -e; for check in crates/*/refusals/check.sh; do bash $$check; done
	bash gate/gate.sh

# A program without proofs, for who works on it: make test PROGRAM=bin/pramc-unproved
unproved: bin/pramc-unproved

bin/pramc-unproved: $(sources)
	python3 gate/unproved.py $@

# Proves every crate over what earlier runs kept.
check:
	rt all check

# Asks the crates what no command of the program shows.
calls:
	bash gate/calls.sh

# Runs the C text of plans under MPI by more maps than the test does, and under the compiler's sanitizers; needs mpicc and mpirun.
mpi-test: bin/pramc
	bash gate/mpi_test.sh bin/pramc --both
	bash gate/mpi_test.sh bin/pramc --sanitize

# Prints figures, and asserts nothing.
bench:
	set -e; for run in bench/*/run.sh; do bash $$run; done

# Shows that callers which must not compile are refused.
refusals:
	set -e; for check in crates/*/refusals/check.sh; do bash $$check; done

NAMES ?=

# Has the prover refuse the wrong bodies that the gate leaves out, of the crates NAMES or of all.
wrong-bodies:
	python3 gate/wrong_bodies.py try $(NAMES)

SEED ?= 1
COUNT ?= 500

# Compares the program with the interpreter of gate/oracle on COUNT drawn programs and some changed texts and listings, and all that it says
# of drawn programs with one another; with FROM=FOLDER both on the programs NAME.pram of that folder, on the inputs NAME.in. What differs is
# kept in bin/differs.
FUZZED = $(if $(FROM),--from $(FROM),--seed $(SEED) --count $(COUNT))
fuzz: bin/pramc
	python3 gate/oracle/compare.py bin/pramc $(FUZZED)
	python3 gate/drawn_outputs.py bin/pramc $(FUZZED)

# Shows that memory is given back, and that each allocation may be refused.
memory:
	set -e; for check in crates/*/memory/check.sh; do bash $$check; done

# Shows that the tests of runs in threads refuse a run whose threads do nothing.
unthreaded:
	bash crates/run_tests/unthreaded/check.sh

# Writes an archive, a package for Debian and a wheel for Python to hand on, in bin/dist.
dist: bin/pramc
	bash gate/dist.sh

TO ?= bin/site

# Writes the documents and the examples as a folder of plain HTML; needs pandoc or python3-markdown.
site: bin/pramc
	@python3 gate/site.py $(TO)

clean:
	rm -rf bin crates/*/out python/build python/pramc.egg-info

PREFIX ?= /usr/local
shared = $(DESTDIR)$(PREFIX)/share
# Each installed file, as WHERE=FILE.
installed = \
	$(shared)/man/man1/pramc.1=man/pramc.1 \
	$(shared)/bash-completion/completions/pramc=completions/pramc.bash \
	$(shared)/vim/vimfiles/syntax/pram.vim=editors/vim/syntax/pram.vim \
	$(shared)/vim/vimfiles/ftdetect/pram.vim=editors/vim/ftdetect/pram.vim \
	$(shared)/vim/vimfiles/ftplugin/pram.vim=editors/vim/ftplugin/pram.vim \
	$(shared)/vim/vimfiles/compiler/pramc.vim=editors/vim/compiler/pramc.vim \
	$(foreach it,$(wildcard editors/textmate/*.json),$(shared)/pramc/textmate/$(notdir $(it))=$(it))

# Puts the program, its man page, its completions and the syntax of the language for editors below PREFIX.
install: $(PROGRAM)
	install -D -m 755 $(PROGRAM) $(DESTDIR)$(PREFIX)/bin/pramc
	set -e; for it in $(installed); do install -D -m 644 "$${it#*=}" "$${it%%=*}"; done

# Takes them away again, and the folders that are theirs alone.
uninstall:
	rm -f $(DESTDIR)$(PREFIX)/bin/pramc $(foreach it,$(installed),$(firstword $(subst =, ,$(it))))
	set -e; for it in $(shared)/pramc/textmate $(shared)/pramc; do if [ -d $$it ]; then rmdir --ignore-fail-on-non-empty $$it; fi; done
