#   make                        proves and builds the program (40 minutes on four processors), and
#                               says where it is
#   make demo                   sweeps an example; without a proved program by 'rt try', which takes
#                               a minute, proves nothing and does not keep its program
#   make check                  what your change needs before a commit, in a minute or two: proves
#                               the crates and tests the tools and documents that it is of
#   make test                   proves everything and tests the program; the last line is 'N passed,
#                               M failed'; a second time it proves only what changed
#   make test-tools             builds the program and tests the tools and the package with it
#   make strain                 tests that take longer: refusals, 100,000 random cases, against
#                               Cachegrind, against C code, and the tools' tests themselves
#   make refusals               of these, only refused memory, for the program and for each call of
#                               the libraries
#   make mutants                small changes that make the code wrong, each of which the prover
#                               must refuse at the goal that it names
#   make tools                  compiles the C parts of the tools, which else are compiled at their
#                               first use
#   make install PREFIX=/usr    builds the program and puts it, tools, manual, completion and
#                               documents below PREFIX (/usr/local)
#   make uninstall PREFIX=/usr  removes what make install has put there
#   make deb                    builds the program and makes a Debian package of the same,
#                               out/cachesim_VERSION_amd64.deb
#   make clean                  removes all that was built; the next make proves everything anew
#   make help                   writes this
#
# What proves or builds needs the kit's command rt, on the path or by RT=/its/path. make check, make
# test, make refusals and make strain need Python 3 and a C compiler too, make strain Valgrind, and
# make mutants Python 3. make test-tools and make deb name the Debian packages that they miss. make
# install and make uninstall put DESTDIR in front of PREFIX, if it is given.

PREFIX ?= /usr/local
BELOW = $(if $(DESTDIR),$(DESTDIR)/)

.PHONY: build demo tools check test test-tools strain refusals mutants
.PHONY: install uninstall deb clean help kit

build:
	@package/target build

demo:
	@package/target demo

tools:
	@$(MAKE) -s -C tools

check: kit
	@python3 tests/check

test: kit
	@python3 tests/all

test-tools: build
	tests/test-tools

strain: build refusals
	tests/fuzz --cases 100000
	tests/forms
	tests/against_cachegrind
	tests/against_c
	tests/try-tests

refusals: kit build
	tests/refusals
	@python3 tests/refusals-library

mutants: kit build
	@python3 tests/try-mutants

install: build
	@package/target install "$(BELOW)$(PREFIX)"

uninstall:
	@package/target uninstall "$(BELOW)$(PREFIX)"

deb: build
	@package/target deb

clean:
	rm -rf crates/*/out tools/out out
	find . -name __pycache__ -prune -exec rm -r {} +
	@echo "removed all that was built: the next make proves everything anew"

help:
	@sed -n '/^#/!q; s/^# \{0,1\}//; p' Makefile

# fails with one line where the kit's command is missing
kit:
	@package/target kit
