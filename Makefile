# make try      configures examples/tally before any proof, in three minutes
# make          proves the crates that the programs stand on, then builds out/acrun and out/acrun-tools
# make core     the same for out/acrun alone: without acrun-tools beside it, it has no lint, port and why
# make demo     as make, and runs the programs on the examples
# make ports    configures, builds and tests packages of Debian, which it fetches, some by debhelper, and one by rpmbuild; it says what it skips
# make compile  tries sample conftests with a real compiler, the one that CC names
# make check    the gate: every proof, every test, every must-fail edit, each allocation refused, and the checks of tools/repository.py
# make proofs   proves all crates and tests without the must-fail edits, so that make check after it has only the rest to do
# make edits    tries the wrong bodies of every crate, or of those that NAMES names: make edits NAMES="crew plan"
# make edits-test  tries the script that does it
# make plants   tries the wrong bodies that tests alone refuse, of every crate, or of those that NAMES names
# make turned   changes one thing at a time in functions of acrun-tools, or in those whose paths begin as FRONTS says, and lists what no example notices
# make turned-scripts  does that in share/configure, share/port and share/acrun-compare: both end with an error if there is more than is explained
# make install  puts the programs, acrun-compare, the manual pages, completions, share/configure, share/port and macros of rpm below $(DESTDIR)$(prefix)
# make uninstall  removes them
# make dist     makes an archive of the programs for machines without the toolchain, out/acrun-VERSION-x86_64-linux.tar.gz
# make deb      makes a Debian package of the same files, with a build system and an add-on of debhelper

prefix = /usr/local
bindir = $(prefix)/bin
datadir = $(prefix)/share
mandir = $(datadir)/man
bashdir = $(datadir)/bash-completion/completions
zshdir = $(datadir)/zsh/site-functions
fishdir = $(datadir)/fish/vendor_completions.d
# rpm looks in /usr/lib/rpm/macros.d.
rpmmacrodir = $(prefix)/lib/rpm/macros.d
# The programs that are installed. If `tools` is empty, acrun is installed without acrun-tools.
program = out/acrun
tools = $$(dirname "$(program)")/acrun-tools

.PHONY: all core try demo ports compile check proofs edits edits-test plants turned turned-scripts install install-files uninstall dist deb

# tools/build.sh looks at what has changed, and builds nothing anew if nothing has.
all:
	@sh tools/build.sh acrun acrun_tools

core:
	@sh tools/build.sh acrun

try:
	@sh tools/try.sh

demo: all
	@sh examples/run.sh out/acrun examples/filter
	@sh examples/run.sh out/acrun examples/first
	@sh examples/run.sh out/acrun examples/branches
	@sh examples/standin/run.sh out/acrun
	@sh examples/answers/run.sh out/acrun
	@sh examples/tally/run.sh out/acrun
	@sh examples/libraries/run.sh out/acrun
	@sh examples/guide/run.sh out/acrun
	@sh examples/lost_compiler/run.sh out/acrun
	@sh examples/help/run.sh out/acrun
	@sh examples/lint/run.sh out/acrun
	@sh examples/port/run.sh out/acrun
	@sh examples/built/run.sh out/acrun
	@sh examples/tools/run.sh out/acrun
	@sh examples/exact/run.sh out/acrun
	@sh examples/completions/run.sh out/acrun
	@sh examples/wrapper/run.sh
	@sh examples/wrapper/port.sh
	@sh examples/install/run.sh out/acrun
	@sh examples/hostile/run.sh out/acrun
	@sh examples/errors/run.sh out/acrun
	@python3 tools/try_errors.py out/acrun
	@sh examples/compare/run.sh
	@sh examples/editors/run.sh out/acrun || [ $$? -eq 77 ]

# The status 77 says that packages were skipped, and that none failed.
ports: all
	@sh examples/ports/run.sh out/acrun || [ $$? -eq 77 ]
	@sh examples/debian/run.sh out/acrun || [ $$? -eq 77 ]
	@sh examples/debian/port.sh out/acrun || [ $$? -eq 77 ]
	@sh examples/debian/unpatched.sh out/acrun || [ $$? -eq 77 ]
	@sh examples/rpm/run.sh out/acrun || [ $$? -eq 77 ]

compile:
	@sh tools/build.sh tests_compiler
	@sh examples/conftest_samples/run.sh out/tests_compiler

check:
	@python3 tools/gate.py

proofs:
	@python3 tools/gate.py --proofs

edits:
	@python3 tools/edits_together.py $(NAMES)

edits-test:
	@python3 tools/edits_together.py --selftest

plants:
	@python3 tools/plant_tested.py $(NAMES)

FRONTS = lint_ port_ cmd_ tools_runner
turned:
	@python3 tools/turned.py $(FRONTS)

turned-scripts:
	@python3 tools/turned_scripts.py

install: all install-files

install-files:
	mkdir -p "$(DESTDIR)$(bindir)" "$(DESTDIR)$(mandir)/man1" "$(DESTDIR)$(datadir)/acrun" "$(DESTDIR)$(bashdir)" "$(DESTDIR)$(zshdir)" "$(DESTDIR)$(fishdir)"
	mkdir -p "$(DESTDIR)$(rpmmacrodir)"
	install -m 755 "$(program)" "$(DESTDIR)$(bindir)/acrun"
	[ -z "$(tools)" ] || install -m 755 "$(tools)" "$(DESTDIR)$(bindir)/acrun-tools"
	install -m 755 share/acrun-compare "$(DESTDIR)$(bindir)/acrun-compare"
	install -m 755 share/configure "$(DESTDIR)$(datadir)/acrun/configure"
	[ -z "$(tools)" ] || install -m 755 share/port "$(DESTDIR)$(datadir)/acrun/port"
	install -m 644 share/acrun.1 "$(DESTDIR)$(mandir)/man1/acrun.1"
	install -m 644 share/acrun-compare.1 "$(DESTDIR)$(mandir)/man1/acrun-compare.1"
	[ -z "$(tools)" ] || install -m 644 share/acrun-tools.1 "$(DESTDIR)$(mandir)/man1/acrun-tools.1"
	install -m 644 share/completions/acrun.bash "$(DESTDIR)$(bashdir)/acrun"
	install -m 644 share/completions/_acrun "$(DESTDIR)$(zshdir)/_acrun"
	install -m 644 share/completions/acrun.fish "$(DESTDIR)$(fishdir)/acrun.fish"
	install -m 644 share/macros.acrun "$(DESTDIR)$(rpmmacrodir)/macros.acrun"

uninstall:
	rm -f "$(DESTDIR)$(bindir)/acrun" "$(DESTDIR)$(datadir)/acrun/configure" "$(DESTDIR)$(mandir)/man1/acrun.1"
	rm -f "$(DESTDIR)$(bindir)/acrun-tools" "$(DESTDIR)$(mandir)/man1/acrun-tools.1" "$(DESTDIR)$(datadir)/acrun/port"
	rm -f "$(DESTDIR)$(bindir)/acrun-compare" "$(DESTDIR)$(mandir)/man1/acrun-compare.1"
	rm -f "$(DESTDIR)$(bashdir)/acrun" "$(DESTDIR)$(zshdir)/_acrun" "$(DESTDIR)$(fishdir)/acrun.fish"
	rm -f "$(DESTDIR)$(rpmmacrodir)/macros.acrun"
	-rmdir "$(DESTDIR)$(datadir)/acrun"

dist: all
	@sh tools/package.sh dist

deb: all
	@sh tools/package.sh deb
