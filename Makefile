# make            proves and builds the program and the library for C
# make install    puts them below prefix (/usr/local), with the manual pages, completions, headers, examples and pages
# make uninstall  removes what that has installed
#
# install-program, install-library, uninstall-program and uninstall-library do half of it. packaging/install says which variables there
# are; those in capitals, PREFIX, BINDIR, LIBDIR, INCLUDEDIR, DATADIR, MANDIR and DOCDIR, mean the same. With PROGRAM=FILE and LIBRARY=FILE,
# which were built elsewhere, nothing is built.
prefix = $(or $(PREFIX),/usr/local)
bindir = $(or $(BINDIR),$(prefix)/bin)
libdir = $(or $(LIBDIR),$(prefix)/lib)
includedir = $(or $(INCLUDEDIR),$(prefix)/include)
datadir = $(or $(DATADIR),$(prefix)/share)
mandir = $(or $(MANDIR),$(datadir)/man)
docdir = $(or $(DOCDIR),$(datadir)/doc/felosumay)
export prefix bindir libdir includedir datadir mandir docdir DESTDIR PROGRAM LIBRARY

all: program library
program:
	$(if $(PROGRAM),,cd crates/felosumay && rt run -- --version)
library:
	$(if $(LIBRARY),,cd crates/rdm_c && rt lib)
install: install-program install-library
uninstall: uninstall-program uninstall-library
install-program install-library:
	packaging/install $(@:install-%=%)
uninstall-program uninstall-library:
	packaging/install --remove $(@:uninstall-%=%)
check:
	.ci/install

.PHONY: all program library install install-program install-library uninstall uninstall-program uninstall-library check
.NOTPARALLEL:
