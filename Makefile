# make install PREFIX=/usr/local: the program, the library for C, its header, manual pages, completions, the scripts of contrib/ with
# pb- before their names, and the documents. It installs what dist/ carries, if that was built from these sources and runs on this
# machine. Otherwise it installs what ./build makes. The shared library is linked by CC, and left out if there is no such compiler.
# DESTDIR goes before each path, as packagers expect. `make uninstall` with the same settings removes what was installed.
PREFIX = /usr/local
DESTDIR =
PROGRAM =
CC = cc
BINDIR = $(PREFIX)/bin
LIBDIR = $(PREFIX)/lib
INCLUDEDIR = $(PREFIX)/include
DATADIR = $(PREFIX)/share
MANDIR = $(DATADIR)/man
DOCDIR = $(DATADIR)/doc/pb
BASHDIR = $(DATADIR)/bash-completion/completions
ZSHDIR = $(DATADIR)/zsh/site-functions
FISHDIR = $(DATADIR)/fish/vendor_completions.d
PCDIR = $(LIBDIR)/pkgconfig

SCRIPTS = $(filter-out %.md %.py __pycache__,$(notdir $(wildcard contrib/*)))
MODULES = $(notdir $(wildcard contrib/*.py))
DOCUMENTS = README.md CHANGELOG.md LICENSE-APACHE LICENSE-MIT THIRD-PARTY.md contrib/README.md docs examples
VERSION = $(shell cat VERSION)
SONAME = libpb.so.$(firstword $(subst ., ,$(VERSION)))

# The carried files if they fit, or else those that ./build makes.
all:
	@dist/home >/dev/null && echo 'pb: the carried files are those of these sources; `make prove` builds them again' || ./build

# Proves and builds everything from its source. This needs the command rt of the Rattle kit.
prove:
	./build

# Every check that needs no prover, and those that take a few seconds. PROGRAM names another program, as one that is installed.
check:
	checks/run $(if $(PROGRAM),'$(PROGRAM)')

quick:
	checks/run --quick $(if $(PROGRAM),'$(PROGRAM)')

# A link goes from the folder of programs to each script, as the scripts load modules and each other from their own folder. The paths in
# pb.pc are those from the folder of pb.pc, so that what was installed may be moved.
install:
	home=$$(dist/home || { ./build >&2 && echo out; }) && \
	install -D -m 755 "$$home/pb" '$(DESTDIR)$(BINDIR)/pb' && \
	install -D -m 644 "$$home/libpb.a" '$(DESTDIR)$(LIBDIR)/libpb.a'
	if command -v $(firstword $(CC)) >/dev/null; then \
	    CC='$(CC)' dist/shared '$(DESTDIR)$(LIBDIR)/libpb.a' '$(DESTDIR)$(LIBDIR)/libpb.so.$(VERSION)' && \
	    chmod 644 '$(DESTDIR)$(LIBDIR)/libpb.so.$(VERSION)' && \
	    ln -sf libpb.so.$(VERSION) '$(DESTDIR)$(LIBDIR)/$(SONAME)' && \
	    ln -sf $(SONAME) '$(DESTDIR)$(LIBDIR)/libpb.so'; \
	else echo 'pb: there is no $(firstword $(CC)), so the shared library was left out' >&2; fi
	install -D -m 644 include/pb.h '$(DESTDIR)$(INCLUDEDIR)/pb.h'
	install -D -m 644 include/pb.hpp '$(DESTDIR)$(INCLUDEDIR)/pb.hpp'
	install -D -m 644 man/pb.1 '$(DESTDIR)$(MANDIR)/man1/pb.1'
	install -D -m 644 man/pb.h.3 '$(DESTDIR)$(MANDIR)/man3/pb.h.3'
	install -D -m 644 completions/pb.bash '$(DESTDIR)$(BASHDIR)/pb'
	install -D -m 644 completions/_pb '$(DESTDIR)$(ZSHDIR)/_pb'
	install -D -m 644 completions/pb.fish '$(DESTDIR)$(FISHDIR)/pb.fish'
	for name in $(SCRIPTS); do \
	    install -D -m 755 contrib/$$name '$(DESTDIR)$(DATADIR)/pb'/$$name && \
	    ln -srf '$(DESTDIR)$(DATADIR)/pb'/$$name '$(DESTDIR)$(BINDIR)'/pb-$$name || exit 1; \
	done
	for name in $(MODULES); do install -D -m 644 contrib/$$name '$(DESTDIR)$(DATADIR)/pb'/$$name || exit 1; done
	if command -v python3 >/dev/null; then \
	    for name in $(SCRIPTS); do packaging/manual $$name '$(DESTDIR)$(MANDIR)/man1'/pb-$$name.1 || exit 1; done; \
	else echo 'pb: there is no python3, so the manual pages of the scripts were left out' >&2; fi
	find $(DOCUMENTS) -type f ! -name '*.pyc' -exec sh -c \
	    'for name; do install -D -m 644 "$$name" "$$0/$$name" || exit 1; done' '$(DESTDIR)$(DOCDIR)' {} +
	mkdir -p '$(DESTDIR)$(PCDIR)'
	printf '%s\n' "prefix=\$${pcfiledir}/$$(realpath -ms --relative-to='$(PCDIR)' '$(PREFIX)')" \
	    "libdir=\$${prefix}/$$(realpath -ms --relative-to='$(PREFIX)' '$(LIBDIR)')" \
	    "includedir=\$${prefix}/$$(realpath -ms --relative-to='$(PREFIX)' '$(INCLUDEDIR)')" '' 'Name: pb' \
	    'Description: A verified checker of pseudo-Boolean instances and proofs' 'Version: $(VERSION)' \
	    'License: MIT OR Apache-2.0' 'Libs: -L$${libdir} -lpb' 'Cflags: -I$${includedir}' > '$(DESTDIR)$(PCDIR)/pb.pc'

uninstall:
	rm -f '$(DESTDIR)$(BINDIR)/pb' $(SCRIPTS:%='$(DESTDIR)$(BINDIR)/pb-%') $(SCRIPTS:%='$(DESTDIR)$(MANDIR)/man1/pb-%.1') \
	    '$(DESTDIR)$(LIBDIR)/libpb.a' \
	    '$(DESTDIR)$(LIBDIR)/libpb.so' '$(DESTDIR)$(LIBDIR)/$(SONAME)' '$(DESTDIR)$(LIBDIR)/libpb.so.$(VERSION)' \
	    '$(DESTDIR)$(PCDIR)/pb.pc' '$(DESTDIR)$(INCLUDEDIR)/pb.h' '$(DESTDIR)$(INCLUDEDIR)/pb.hpp' '$(DESTDIR)$(MANDIR)/man1/pb.1' '$(DESTDIR)$(MANDIR)/man3/pb.h.3' \
	    '$(DESTDIR)$(BASHDIR)/pb' \
	    '$(DESTDIR)$(ZSHDIR)/_pb' '$(DESTDIR)$(FISHDIR)/pb.fish'
	rm -rf '$(DESTDIR)$(DATADIR)/pb' '$(DESTDIR)$(DOCDIR)'

# The sources of the last commit, with the carried files. The same commit gives the same bytes.
dist:
	packaging/run source

# Packages of the last commit in out/packages, each kind in a folder of its own. packaging/README.md says what they need.
packages:
	packaging/run

# Makes the packages twice in folders of their own, compares the bytes, and tries each outside of the clone.
check-packages:
	checks/program/packages

.PHONY: all prove check quick install uninstall dist packages check-packages
