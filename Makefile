# What a user types. `make` alone lists it.

# The command of the Rattle toolchain.
RT ?= $(firstword $(shell command -v rt 2> /dev/null) $(wildcard /opt/rattle/bin/rt))
export RT

PROGRAMS := quickstart ldbtool

# Where `make install` puts ldbtool and what belongs to it. DESTDIR comes first, for packagers.
PREFIX ?= /usr/local
LDBTOOL ?= build/ldbtool
BELOW := $(DESTDIR)$(PREFIX)
DOC := share/doc/ldbtool

# What is installed beside the program: FILE:PLACE, the place below PREFIX.
# (Debian's zsh looks elsewhere in a package.)
ZSH ?= share/zsh/site-functions
DOCUMENTS := README.md docs/GUIDE.md CHANGELOG.md LICENSE-MIT LICENSE-APACHE
FILES := \
  man/ldbtool.1:share/man/man1/ldbtool.1 \
  completion/ldbtool.bash:share/bash-completion/completions/ldbtool \
  completion/_ldbtool:$(ZSH)/_ldbtool \
  $(foreach it,$(DOCUMENTS),$(it):$(DOC)/$(notdir $(it)))

# The sources of the proved program. If none is newer than it, it isn't proved again.
SOURCES := crates.txt \
  $(shell find crates -name out -prune -o \( -name '*.rt' -o -name '*.antt' \) -print)

.PHONY: help demo quick build install uninstall deb program stops soak test bugs costs interop \
  bench clean needs-rt
.SILENT:

define HELP
make demo       A first session of ldbtool over a real folder, build/demo. It uses build/ldbtool, or
                else builds the program without its proof: two or three minutes, once.
make quick      All tests that need no proof: minutes. Over the programs in build/, if they are
                there, it also checks ldbtool, and compares it with LevelDB.
make test       Everything: each proof from nothing, each test, the bugs that the prover must
                refuse (of the crates that have changed), ldbtool, LevelDB beside it. It takes one
                to two hours. make test FULL=1 tries the bugs of all crates, and proves all tests.
make build      Proves the programs, and puts them into build/: an hour or more from nothing.
make install    Puts ldbtool, its manual page, completion for bash and zsh, documents and licences
                below PREFIX (/usr/local), which lies in DESTDIR (none); the C library, too, if it
                was built.
make uninstall  Removes them.
make lib        Proves the C library, and puts it into build/. make lib-unproved makes it without a
                proof, into build/unproved. make lib-check tries it, in C, Rust and Python: a minute.
make lib-install    Puts it below PREFIX, with its pkg-config file. make lib-uninstall removes it.
make deb        Makes Debian packages of the same in build/: ldbtool, and libwachuspi-dev if the
                library was built. It needs dpkg-dev and binutils.
make program    Checks ldbtool as users run it: scripts, pipes, wrong folders, examples. A minute.
make stops      Rebuilds the states after crashes and power losses, and opens each. Under a minute.
make soak       Drawn sessions of ldbtool beside a plain model, half of them killed; states after
                crashes and power losses; sessions of several processes by turns on one folder;
                20,000 damaged directories. Ten minutes each, or those of make soak SECONDS=60.
make interop    Compares ldbtool with LevelDB: three minutes.
make bench      Measures ldbtool beside LevelDB, into docs/SPEED.md. make bench N=100000 takes
                fewer entries than a million.
make bugs       Tries all bugs that the prover must refuse, and records it in bugs/refused.txt.
                Hours; make bugs CRATE=table for one crate.
make costs      Says what each crate costs the gate. Hours; make costs CRATE=table for one crate.
make clean      Removes all that was built.

make quick, test and interop compare with LevelDB. If g++, libleveldb-dev or python3-plyvel is
missing, they install it by apt-get. Without a network they say so, run the rest, and fail.
endef
export HELP

help:
	echo "$$HELP"

demo:
	tools/demo

quick: needs-rt
	tools/quick

build: needs-rt
	echo 'Proving $(PROGRAMS) and all below: an hour or more from nothing, on four processors.'
	mkdir -p build
	tools/proofs/libraries $(PROGRAMS)
	for program in $(PROGRAMS); do tools/proofs/proved $$program || exit 1; done

build/ldbtool: $(SOURCES)
	$(MAKE) --no-print-directory build PROGRAMS=ldbtool

install: $(LDBTOOL)
	install -D -m 755 '$(LDBTOOL)' '$(BELOW)/bin/ldbtool'
	echo 'installed $(BELOW)/bin/ldbtool'
	for it in $(FILES); do \
	  install -D -m 644 "$${it%%:*}" '$(BELOW)'/"$${it#*:}" && \
	    echo 'installed $(BELOW)'/"$${it#*:}" || exit 1; \
	done
	if [ -e '$(LIBRARY)/libwachuspi.a' ]; then $(MAKE) --no-print-directory lib-install; fi

uninstall: lib-uninstall
	for file in bin/ldbtool $(foreach it,$(FILES),$(lastword $(subst :, ,$(it)))); do \
	  file='$(BELOW)'/"$$file"; \
	  if [ -e "$$file" ]; then \
	    rm "$$file" && echo "removed $$file" || exit 1; \
	  else \
	    echo "there is no $$file"; \
	  fi; \
	done
	if [ -d '$(BELOW)/$(DOC)' ]; then rmdir --ignore-fail-on-non-empty '$(BELOW)/$(DOC)'; fi

deb: $(LDBTOOL)
	tools/deb '$(LDBTOOL)' '$(or $(DEB),build)' '$(LIBRARY)'

program: build/ldbtool
	tools/checks/program build/ldbtool

stops: build/ldbtool
	tools/faults/stops

soak: build/ldbtool
	tools/faults/soak $(if $(SECONDS),--seconds $(SECONDS))
	tools/faults/stops --seconds $(or $(SECONDS),600)
	tools/faults/turns --seconds $(or $(SECONDS),600)
	tools/faults/damage $(if $(SECONDS),--seconds $(SECONDS),--count 2000)

interop: needs-rt
	interop/run

bench: needs-rt
	N=$(N) bench/run

test: needs-rt
	tools/gate $(if $(FULL),--full)

bugs: needs-rt
	tools/proofs/bugs $(CRATE)

costs: needs-rt
	tools/proofs/costs $(CRATE)

clean:
	rm -rf build crates/*/out

needs-rt:
	command -v python3 > /dev/null || \
	  { echo 'python3 is missing (3.8 or later): apt-get install python3' >&2; exit 1; }
	test -n "$(RT)" || \
	  { echo 'rt, the Rattle toolchain, is not on PATH: put the bin/ of the kit there' >&2; exit 1; }

include tools/library.mk
