# Builds, shows, tests, installs and measures mkedit. The toolchain's command, rt, proves and
# builds the crates; this file says what is made from what.
#
#   make            proves and builds the program, where a source has changed, with one line a crate
#                   (tools/build); what rt says is in crates/mkedit/out/build.log. The program,
#                   crates/mkedit/out/bin/mkedit, has the C library in it where the machine has a
#                   static one, so that it starts sooner (tools/link)
#   make lib        proves and builds the library for C in crates/mkedit_c/out/lib: libmkedit.a, and where
#                   there is a C compiler libmkedit.so too (tools/library); include/mkedit.h declares it
#   make demo       shows scripts at work, one that is refused, and the queries; the program that it
#                   shows is built in a minute, with checks while it runs and without proofs
#                   (tools/try), and is not the one of make: crates/mkedit/out/tried/mkedit
#   make test       the quick test of a change, in minutes: the lint, the stored rows, and the tests of
#                   the program that make demo shows; nothing is proved
#   make check      the test of a change before it is merged (tests/gate): the lint, the stored rows, all
#                   proofs, must-fail edits and tests of the crates (rt ci), and the tests of the program
#                   that was proved; its last line is 'N passed, M failed', as that of make test
#   make soak       tries the program on random makefiles and scripts for MINUTES minutes; prints
#                   the seed, which SEED=N takes again
#   make judge      has GNU make judge edits of random makefiles, for MINUTES minutes
#   make fuzz       has afl++ look for inputs that take the program along new ways, for MINUTES
#                   minutes, and judges each; prints the seed, which SEED=N takes again
#   make rows       makes the stored files of rows anew, after a table of tests/cases has changed
#   make hostile    tries the program, as rt links it, with hostile texts of 16 MB, with memory that
#                   ends and under valgrind, and measures it there; some minutes long
#   make texts      makes the texts anew that several files share, after their source has changed:
#                   what is said of refusals and commands, the manual pages, and what one has to
#                   believe (tools/texts)
#   make dist       packs a release, mkedit-VERSION-x86_64-linux.tar.gz with its SHA-256 beside it, into
#                   the folder $(DIST): the program, the manual pages, the completions, the package for
#                   Python, what a user reads, and the library for C, where make lib has built it; the
#                   same bytes each time (tools/dist)
#   make deb        packs Debian packages: the program with what belongs to it, the package for Python,
#                   and the library for C, where make lib has built it; MAINTAINER='NAME <ADDRESS>' says
#                   who is asked about them (tools/deb)
#   make install    puts the program into $(DESTDIR)$(PREFIX)/bin, and the manual pages and the
#                   completions of bash, zsh and fish where each belongs; and the library, its header
#                   and what pkg-config asks for, where make lib has built it
#   make uninstall  takes away what make install puts there
#                   (PREFIX, BINDIR, LIBDIR, INCLUDEDIR, MANDIR, BASHCOMPDIR, ZSHCOMPDIR and
#                   FISHCOMPDIR say where, and DESTDIR stands before each)
#   make bench      compares its time and memory with those of cat and sed and with what is aimed
#                   at, draws into bench/data/speed.svg how its time grows, and measures the reading
#                   of lines, and edits of a large makefile; then many edits of each kind, which it
#                   draws into bench/data/many.svg, beside a program that rustc builds; and how long
#                   a line of a session waits for its reply; 30 to 60 minutes long, and less where
#                   EDITS=1000 leaves out the cases of 10,000 edits
#   make clean      removes all that was made but releases, and what rt keeps between two checks
#
# It is written for POSIX.1-2024 make, which GNU make 4 reads as well.
.POSIX:
.PHONY: all lib demo test check hostile judge soak fuzz rows texts dist deb install install-lib uninstall bench clean

PREFIX ?= /usr/local
BINDIR ?= $(PREFIX)/bin
LIBDIR ?= $(PREFIX)/lib
INCLUDEDIR ?= $(PREFIX)/include
MANDIR ?= $(PREFIX)/share/man
BASHCOMPDIR ?= $(PREFIX)/share/bash-completion/completions
ZSHCOMPDIR ?= $(PREFIX)/share/zsh/site-functions
FISHCOMPDIR ?= $(PREFIX)/share/fish/vendor_completions.d
DIST ?= dist
MINUTES ?= 15
EDITS ?= 10000
PROGRAM = crates/mkedit/out/bin/mkedit
# The same program as rt links it: it loads the C library when it starts.
BUILT = crates/mkedit/out/mkedit
# The folder of the library for C.
LIBRARY = crates/mkedit_c/out/lib
# The same program without proofs, with checks while it runs.
TRIED = crates/mkedit/out/tried/mkedit
BENCH = crates/mk_bench/out/mk_bench
SOURCES != find crates -name out -prune -o '(' -name '*.rt' -o -name '*.antt' ')' -print

all: $(PROGRAM)

# The program is linked each time, so that it is newer than each source.
$(PROGRAM): crates.txt HANDLES tools/build tools/link $(SOURCES)
	@tools/build mkedit
	@tools/link $(BUILT) $@

lib: $(LIBRARY)/libmkedit.a

$(LIBRARY)/libmkedit.a: crates.txt HANDLES tools/archive tools/build tools/library $(SOURCES)
	@tools/build mkedit_c
	@tools/library crates/mkedit_c/out/libmkedit_c.a $(LIBRARY)

$(TRIED): crates.txt tools/try $(SOURCES)
	@tools/try $@

demo: $(TRIED)
	@MKEDIT=$(TRIED) examples/demo
	@echo
	@echo "The program that ran is $(TRIED). It is built without proofs, and checks end it at a fault."
	@echo "'make' proves mkedit, and builds the program that 'make install' installs."

test:
	@python3 -B -m tests.gate

# Needs no program: rt ci proves and builds its own.
check:
	@python3 -B -m tests.gate rt ci

hostile: $(PROGRAM)
	@python3 -B -m tests.hostile $(BUILT)

soak: $(PROGRAM)
	@python3 -B -m tests.soak --minutes $(MINUTES) $(SEED:%=--seed %) $(PROGRAM)

fuzz: $(PROGRAM)
	@python3 -B -m tests.fuzz --minutes $(MINUTES) $(SEED:%=--seed %) $(PROGRAM)

rows:
	@python3 -B -m tests.gate.rows --write

texts:
	@tools/texts

judge: $(PROGRAM)
	@python3 -B -m tests.judge --minutes $(MINUTES) $(PROGRAM)

# A release has the C library in it, for which tools/link needs the object file. The program is linked
# again, so that it tells the commit that is checked out now.
dist: $(PROGRAM)
	@test -f $(BUILT).o || tools/build mkedit
	@tools/link $(BUILT) $(PROGRAM)
	@tools/dist $(PROGRAM) "$(DIST)"

deb: $(PROGRAM)
	@test -f $(BUILT).o || tools/build mkedit
	@tools/link $(BUILT) $(PROGRAM)
	@MAINTAINER="$(MAINTAINER)" tools/deb $(PROGRAM) "$(DIST)"

install: $(PROGRAM)
	install -d "$(DESTDIR)$(BINDIR)" "$(DESTDIR)$(MANDIR)/man1" "$(DESTDIR)$(MANDIR)/man5"
	install -d "$(DESTDIR)$(BASHCOMPDIR)" "$(DESTDIR)$(ZSHCOMPDIR)" "$(DESTDIR)$(FISHCOMPDIR)"
	install -m 755 $(PROGRAM) "$(DESTDIR)$(BINDIR)/mkedit"
	install -m 644 docs/mkedit.1 "$(DESTDIR)$(MANDIR)/man1/mkedit.1"
	install -m 644 docs/mkedit-script.5 "$(DESTDIR)$(MANDIR)/man5/mkedit-script.5"
	install -m 644 completions/mkedit.bash "$(DESTDIR)$(BASHCOMPDIR)/mkedit"
	install -m 644 completions/mkedit.zsh "$(DESTDIR)$(ZSHCOMPDIR)/_mkedit"
	install -m 644 completions/mkedit.fish "$(DESTDIR)$(FISHCOMPDIR)/mkedit.fish"
	@test ! -f $(LIBRARY)/libmkedit.a || $(MAKE) -s install-lib

# The library, which make lib has built.
install-lib:
	install -d "$(DESTDIR)$(INCLUDEDIR)" "$(DESTDIR)$(LIBDIR)/pkgconfig"
	install -m 644 include/mkedit.h "$(DESTDIR)$(INCLUDEDIR)/mkedit.h"
	install -m 644 $(LIBRARY)/libmkedit.a "$(DESTDIR)$(LIBDIR)/libmkedit.a"
	sed -e 's|@LIBDIR@|$(LIBDIR)|' -e 's|@INCLUDEDIR@|$(INCLUDEDIR)|' packaging/mkedit.pc.in \
		>"$(DESTDIR)$(LIBDIR)/pkgconfig/mkedit.pc"
	chmod 644 "$(DESTDIR)$(LIBDIR)/pkgconfig/mkedit.pc"
	test ! -f $(LIBRARY)/libmkedit.so.0 || { \
		install -m 755 $(LIBRARY)/libmkedit.so.0 "$(DESTDIR)$(LIBDIR)/libmkedit.so.0" && \
		ln -sf libmkedit.so.0 "$(DESTDIR)$(LIBDIR)/libmkedit.so"; }

# The folders stay, since others may use them.
uninstall:
	rm -f "$(DESTDIR)$(BINDIR)/mkedit" "$(DESTDIR)$(MANDIR)/man1/mkedit.1"
	rm -f "$(DESTDIR)$(MANDIR)/man5/mkedit-script.5"
	rm -f "$(DESTDIR)$(BASHCOMPDIR)/mkedit" "$(DESTDIR)$(ZSHCOMPDIR)/_mkedit"
	rm -f "$(DESTDIR)$(FISHCOMPDIR)/mkedit.fish" "$(DESTDIR)$(INCLUDEDIR)/mkedit.h"
	rm -f "$(DESTDIR)$(LIBDIR)/libmkedit.a" "$(DESTDIR)$(LIBDIR)/libmkedit.so"
	rm -f "$(DESTDIR)$(LIBDIR)/libmkedit.so.0" "$(DESTDIR)$(LIBDIR)/pkgconfig/mkedit.pc"

$(BENCH): crates.txt HANDLES tools/build $(SOURCES)
	@tools/build mk_bench

bench: $(PROGRAM) $(BENCH)
	@bench/run $(PROGRAM)
	@bench/aims --edits $(EDITS) $(PROGRAM)
	@bench/lines $(BENCH)
	@bench/edits $(BENCH)
	@bench/many --edits $(EDITS) $(PROGRAM)
	@bench/sessions $(PROGRAM)

clean:
	rm -rf crates/*/out bench/data
