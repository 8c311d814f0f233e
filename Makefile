# What a user, a packager and a developer run. Building needs the kit's command `rt` and python3; the library also cc, ld, objcopy and
# ar. Installing needs python3; `make wheel` needs objdump and Python's build, setuptools and wheel, `make install-python` pip too. `make
# dist` also needs dpkg-dev, what debian/control lists, and git or the variable SOURCE_DATE_EPOCH.
#
# Variables: PREFIX; DESTDIR, a folder that replaces / as the root; PROGRAM, the program's installed name; CPU, the level of processor
# to build and install for, x86-64-v2 or x86-64-v3, by default the one that this processor has; BUILT, the file to install as the
# program, by default the one for CPU; LIBDIR, where the library goes; PC_PREFIX, the prefix in aecp.pc; PYTHON, the interpreter that
# runs the scripts of packaging/ and into whose environment `install-python` installs; PIP_OPTIONS, more options of pip.
PREFIX ?= /usr/local

VERSION := $(shell cat VERSION)
PYTHON ?= python3
# Only as an argument of make: some systems have an environment variable CPU, with other values.
ifneq ($(origin CPU),command line)
CPU := $(shell AECP_LEVEL= $(PYTHON) bindings/python/aecp/levels.py)
else ifeq ($(filter x86-64-v2 x86-64-v3,$(CPU)),)
$(error CPU is x86-64-v2 or x86-64-v3, not $(CPU))
endif
# Given two texts, is the first for x86-64-v3 and the second for x86-64-v2.
by_cpu = $(if $(filter x86-64-v3,$(CPU)),$(1),$(2))

.PHONY: all help try example sizes test check pages man version theorem wrong-bodies install uninstall bench pictures clean

# Proves the program and the crates that it uses, and builds bin/aec, which runs on x86-64-v2. If CPU is x86-64-v3, also builds
# bin/x86-64-v3/aec from the same proofs.
all: bin/aec ## proves and builds the program, bin/aec (5 to 27 minutes on four processors)
	@$(call by_cpu,$(MAKE) -s v3-program)

bin/aec: FORCE
	@at=$$($(PYTHON) packaging/proved.py state) && sh build.sh && $(PYTHON) packaging/proved.py record "$$at" bin/aec

# Prints the targets: those with a text after `##`.
help:
	@awk -F ':.*## ' '/^[a-z][a-z0-9-]*:.*## / { printf "make %-18s %s\n", $$1, $$2 }' Makefile

# Builds for x86-64-v3 what bin/ has for x86-64-v2, and refuses if the crates have changed meanwhile: program, library, both.
.PHONY: v3 v3-program v3-library
v3: v3-program v3-library ## builds program and library for x86-64-v3 too, from the same proofs
v3-program v3-library:
	@$(PYTHON) packaging/build_v3.py $(patsubst v3-%,%,$@)

# Proves and builds program and library for both levels.
.PHONY: levels
levels: ## proves and builds program and library for both levels of processors
	@$(MAKE) -s all library CPU=x86-64-v3

# Tests bin/x86-64-v3/aec by the scripts of tests/ that run a program, and compares it with bin/aec. SHORT=1: few jobs, half a minute.
.PHONY: test-cpu
SHORT ?=
test-cpu: ## tests bin/x86-64-v3/aec (with SHORT=1 half a minute)
	@$(PYTHON) tests/levels.py $(if $(SHORT),--short)

FORCE:

# Builds bin/aec-unproved without proofs, and tests it with four small jobs.
try: ## builds bin/aec-unproved without proofs, and tries it (1 to 2.5 minutes)
	@sh try.sh

# Runs bin/aec on the files of examples/.
example: all ## the main job: proves, builds and runs bin/aec on examples/ (as `make`)
	@sh examples/run.sh bin/aec

# Prints how many bytes a file takes with each block size and interval: make sizes FILE=.. OPTIONS="-n 16". Needs bin/libaecp.so.
FILE ?= examples/durations.raw
OPTIONS ?= -n 16
sizes: ## prints how many bytes FILE takes with each block size and interval, with OPTIONS
	@PYTHONPATH=bindings/python python3 -m aecp fit $(FILE) $(OPTIONS)

# Checks the contracts and the generated pages, runs the gate (`rt ci`), then tests the program that the gate has built.
test: ## proves everything again, and runs all tests of the program (32 to 61 minutes on four processors)
	sh tests/run.sh

# Runs all tests that need no kit on an installed program, by default bin/aec: make check PROGRAM=/usr/bin/aec-proved. LIBRARY, a folder
# that has libaecp.a and libaecp.so, adds the tests of the library.
LIBRARY ?=
check: ## tests an installed program without the kit: PROGRAM=/usr/bin/aec-proved, LIBRARY=FOLDER
	sh tests/run.sh check $(if $(filter file,$(origin PROGRAM)),bin/aec,$(PROGRAM)) $(LIBRARY)

# Writes the tables of modules, in the README of each crate and in docs/ARCHITECTURE.md.
pages: ## writes the tables of modules (seconds)
	@python3 tools/modules.py

# Writes man/aec.1 from docs/COMMAND.md, man/aecp.1 from docs/ARCHIVE.md, and the completions of aecp from its parser.
man: ## writes man/ and completions/ from the pages and the parser (seconds)
	@python3 tools/man.py
	@python3 tools/completions.py

# Writes the version of the file VERSION into each file that contains a copy of it.
version: ## copies the version of the file VERSION everywhere (seconds)
	@python3 tools/version.py
	@$(MAKE) -s man pages

# Writes docs/theorems/: all that a reader of a theorem has to believe. For another theorem: make theorem OF="aec_edit::write_edited samples"
theorem: ## writes docs/theorems/ (seconds)
	@python3 tools/theorem.py $(OF)

# Prints the contract of each public function, its must-fail edits and its tests. make contracts offset: only those with this word.
.PHONY: contracts
contracts: ## prints contracts with their must-fail edits and tests: make contracts WORD.. (seconds)
	@python3 checks/contracts.py $(WORDS)

# Prints the functions that are called for one sample, with their files, and the mean number of clauses of a function in each crate.
.PHONY: walk
walk: ## prints the functions that are called for one sample (seconds)
	@python3 tools/walk.py

# Proves everything anew. Prints what each crate and each must-fail edit of the gate costs.
.PHONY: gate-times
gate-times: ## proves everything anew, and prints what each crate and must-fail edit costs
	@python3 tools/gate_times.py

# Prints how much there is to read and to prove: files, words, public functions, must-fail edits.
.PHONY: figures
figures: ## prints how much there is to read and to prove (seconds)
	@python3 tools/figures.py

# Tries the deliberately wrong function bodies that the gate leaves out. The checker must refuse each. With CHANGED=COMMIT it tries
# only those of the crates that differ from this commit. For each crate whose bodies were all refused it leaves a record in bin/.
CHANGED ?=
wrong-bodies: $(if $(CHANGED),,bin/aec) ## tries the wrong bodies that the gate leaves out (12 to 135 seconds each)
	python3 checks/wrong_bodies.py $(if $(CHANGED),--changed $(CHANGED))

# Prints tables of time and memory beside libaec's client, and of what edits cost. Tests nothing.
bench: bin/aec ## prints tables of time and memory
	python3 bench/bench.py bin/aec
	python3 bench/instructions.py bin/aec
	python3 bench/edits.py bin/aec

# Draws the pictures of docs/ from the tables of bench/.
pictures: ## draws the pictures of docs/ (seconds)
	python3 bench/pictures.py

# Installs the program that `make` has built for CPU. It needs python3, but no rt. To keep libaec's client as `aec`, give another name as
# PROGRAM.
PROGRAM ?= aec
BUILT ?= bin/$(call by_cpu,x86-64-v3/)aec
or_plain = $(if $(filter bin/x86-64-v3/aec,$(BUILT)),$(comma) or give CPU=x86-64-v2 to install bin/aec)
comma := ,
share = $(DESTDIR)$(PREFIX)/share
install: ## installs the program: PREFIX, DESTDIR, PROGRAM, CPU (seconds)
	@case "$(PROGRAM)" in aecp | */*) echo "PROGRAM can't be $(PROGRAM)" >&2; exit 1 ;; esac
	@test -x $(BUILT) || { echo "there is no $(BUILT): run make first, which proves the program and builds it$(or_plain)" >&2; exit 1; }
	@echo "installing $(BUILT)$(if $(filter file,$(origin BUILT)), for $(CPU)) as $(PREFIX)/bin/$(PROGRAM)"
	install -d $(DESTDIR)$(PREFIX)/bin $(share)/man/man1 $(share)/bash-completion/completions $(share)/zsh/site-functions
	install -m 755 $(BUILT) $(DESTDIR)$(PREFIX)/bin/$(PROGRAM)
	sed 's|share/doc/aec/|share/doc/$(PROGRAM)/|' man/aec.1 > $(share)/man/man1/$(PROGRAM).1
	sed '/^complete /s/ aec$$/ $(PROGRAM)/' completions/aec.bash > $(share)/bash-completion/completions/$(PROGRAM)
	sed '/^#compdef /s/ aec$$/ $(PROGRAM)/' completions/_aec > $(share)/zsh/site-functions/_$(PROGRAM)
	$(PYTHON) packaging/pages.py $(share)/doc/$(PROGRAM)

# Removes what `make install` has installed below the same PREFIX under the same PROGRAM.
uninstall: ## removes what install has installed
	@test -e $(share)/doc/$(PROGRAM)/README.md || { echo "below $(PREFIX) nothing was installed as $(PROGRAM): give its name as PROGRAM" >&2; exit 1; }
	rm -f $(DESTDIR)$(PREFIX)/bin/$(PROGRAM) $(share)/man/man1/$(PROGRAM).1
	rm -f $(share)/bash-completion/completions/$(PROGRAM) $(share)/zsh/site-functions/_$(PROGRAM)
	rm -rf $(share)/doc/$(PROGRAM)

clean: ## removes what was built, and the kept proofs
	rm -rf bin dist crates/*/out

# Proves the library for C, and builds bin/libaecp.a and bin/libaecp.so. The Python module needs the latter. If CPU is x86-64-v3, also
# builds both for this level in bin/x86-64-v3/.
.PHONY: library test-library install-library install-c install-python uninstall-library
library: ## proves and builds the library for C and Python, bin/libaecp.a and bin/libaecp.so
	@at=$$($(PYTHON) packaging/proved.py state) && sh library.sh && $(PYTHON) packaging/proved.py record "$$at" bin/libaecp.a bin/libaecp.so
	@$(call by_cpu,$(MAKE) -s v3-library)

# Tests the library in bin/ against the program that the gate has built, and how files for a level of processor are built and chosen.
test-library: ## tests the library, the Python module and the command aecp; after test
	python3 tests/level_builds.py
	python3 tests/processors.py
	python3 tests/library.py crates/aec/out/aec bin
	python3 tests/module.py --program crates/aec/out/aec bin
	python3 tests/library_builds.py
	python3 tests/archive.py bin
	python3 tests/preload.py bin

# Header, libraries, aecp(3), files for pkg-config and CMake; by `install-python` the Python module with its own copy of the library and the
# command `aecp` with aecp(1). If the library for x86-64-v3 is built, it is installed too: the loader chooses it by its folder, from glibc
# 2.33 on, and the module by the processor. Else one that is there, of an earlier build, is removed.
hwcaps = glibc-hwcaps/x86-64-v3
LIBDIR ?= $(PREFIX)/lib
PC_PREFIX ?= $(PREFIX)
install-library: install-c install-python ## install-c and install-python
# With `make -j library install-library` the library is built first.
install-c: $(filter library,$(MAKECMDGOALS))

install-c: ## installs the library for C: PREFIX, DESTDIR, LIBDIR (seconds)
	@test -e bin/libaecp.a -a -e bin/libaecp.so || { echo "there is no bin/libaecp.a or no bin/libaecp.so: run make library first" >&2; exit 1; }
	install -d $(DESTDIR)$(PREFIX)/include $(DESTDIR)$(LIBDIR)/pkgconfig
	install -m 644 bindings/c/aecp.h $(DESTDIR)$(PREFIX)/include/aecp.h
	install -m 644 bin/libaecp.a $(DESTDIR)$(LIBDIR)/libaecp.a
	install -m 755 bin/libaecp.so $(DESTDIR)$(LIBDIR)/libaecp.so.1
	ln -sf libaecp.so.1 $(DESTDIR)$(LIBDIR)/libaecp.so
	if [ -e bin/x86-64-v3/libaecp.so ]; then \
	    install -D -m 755 bin/x86-64-v3/libaecp.so $(DESTDIR)$(LIBDIR)/$(hwcaps)/libaecp.so.1; \
	else rm -f $(DESTDIR)$(LIBDIR)/$(hwcaps)/libaecp.so.1; fi
	sed 's|@PREFIX@|$(PC_PREFIX)|; s|@LIBDIR@|$(patsubst $(PREFIX)/%,$${prefix}/%,$(LIBDIR))|; s|@VERSION@|$(VERSION)|' bindings/c/aecp.pc.in \
	    > $(DESTDIR)$(LIBDIR)/pkgconfig/aecp.pc
	install -d $(DESTDIR)$(LIBDIR)/cmake/aecp $(share)/man/man3
	for file in aecpConfig aecpConfigVersion; do \
	    sed 's|@VERSION@|$(VERSION)|' bindings/c/$$file.cmake.in > $(DESTDIR)$(LIBDIR)/cmake/aecp/$$file.cmake || exit 1; done
	install -m 644 bindings/c/aecp.3 $(share)/man/man3/aecp.3
	install -d $(share)/doc/libaecp
	install -m 644 LICENSE NOTICES $(share)/doc/libaecp

# Builds the Python module's sdist and wheel in bin/wheel/, with the library for each level that is built. The wheel is for any Python 3.
.PHONY: wheel uninstall-c uninstall-python
wheel: $(filter library,$(MAKECMDGOALS)) ## builds the wheel and the sdist in bin/wheel/
	@test -e bin/libaecp.so || { echo "there is no bin/libaecp.so: run make library first" >&2; exit 1; }
	@rm -rf bin/wheel
	@$(PYTHON) packaging/python.py bin/wheel

# Installs the wheel by pip into the environment of PYTHON, below DESTDIR if that is given. `pip uninstall aecp` knows each file.
PIP = $(PYTHON) -m pip --disable-pip-version-check
PIP_OPTIONS ?=
install-python: wheel ## installs the Python module and the command aecp by pip, into the environment of PYTHON
	$(PIP) install -q --no-index --no-deps --force-reinstall $(if $(DESTDIR),--root $(DESTDIR)) $(PIP_OPTIONS) bin/wheel/aecp-$(VERSION)-*.whl

# Removes what `make install-library` has installed below the same PREFIX and LIBDIR. pip removes the module from the environment of PYTHON
# alone, so not below a DESTDIR.
uninstall-library: uninstall-c $(if $(DESTDIR),,uninstall-python) ## removes what install-library has installed

uninstall-python: ## removes what install-python has installed
	$(PIP) uninstall -q -y aecp

uninstall-c: ## removes what install-c has installed
	rm -f $(DESTDIR)$(PREFIX)/include/aecp.h $(DESTDIR)$(LIBDIR)/pkgconfig/aecp.pc $(share)/man/man3/aecp.3
	rm -f $(DESTDIR)$(LIBDIR)/libaecp.a $(DESTDIR)$(LIBDIR)/libaecp.so.1 $(DESTDIR)$(LIBDIR)/libaecp.so
	rm -f $(DESTDIR)$(LIBDIR)/$(hwcaps)/libaecp.so.1
	rm -rf $(DESTDIR)$(LIBDIR)/cmake/aecp $(share)/doc/libaecp
	-rmdir $(DESTDIR)$(LIBDIR)/cmake 2> /dev/null
	rmdir $(DESTDIR)$(LIBDIR)/$(hwcaps) $(DESTDIR)$(LIBDIR)/glibc-hwcaps 2> /dev/null || true

# Fails unless this checkout may be released: all binaries are proved at one commit without changes, the gate has passed there, and
# `make wrong-bodies` has seen each wrong body refused. Prints what is missing.
.PHONY: release-check
release-check: ## says what is missing for a release (seconds)
	@$(PYTHON) packaging/release.py

# Packages of what `make levels` has built, in dist/: a tarball, Debian packages, an sdist and a wheel, and their SHA256SUMS. UNPROVED=1
# packs them, for a try, without checking that they were proved; then the file PROVED of each package says that nothing is proved.
.PHONY: dist test-packages
UNPROVED ?=
dist: ## packs what levels has built, in dist/
	@$(PYTHON) packaging/dist.py $(if $(UNPROVED),--unproved)

# Installs the packages into empty roots, runs the commands of the pages there, and removes the packages again.
test-packages: ## installs and tries the packages of dist in empty roots
	$(PYTHON) tests/packages.py

# With `make contracts WORD..` the words are no targets. This is last, so that it holds for words that name targets, too. A word with a
# colon, such as Params::new, can't begin a rule, so `.DEFAULT` takes it.
ifeq (contracts,$(firstword $(MAKECMDGOALS)))
WORDS := $(wordlist 2,$(words $(MAKECMDGOALS)),$(MAKECMDGOALS))
PLAIN_WORDS := $(foreach word,$(WORDS),$(if $(findstring :,$(word)),,$(word)))
.PHONY: $(PLAIN_WORDS)
$(PLAIN_WORDS):
	@:
.DEFAULT:
	@:
endif
