# The C library, and what goes over it (docs/LIBRARY.md). The Makefile includes this file.

# Where it was built, and where it goes below PREFIX. `make install` takes it along if it is there.
LIBRARY ?= build
LIBDIR ?= lib
LIBRARY_VERSION := 0.1.0

# FILE:PLACE, the place below PREFIX.
LIBRARY_FILES = \
  $(LIBRARY)/libwachuspi.a:$(LIBDIR)/libwachuspi.a \
  $(LIBRARY)/libwachuspi.so.1:$(LIBDIR)/libwachuspi.so.1 \
  include/wachuspi.h:include/wachuspi.h
LIBRARY_PLACES = $(foreach it,$(LIBRARY_FILES),$(lastword $(subst :, ,$(it)))) \
  $(LIBDIR)/libwachuspi.so $(LIBDIR)/pkgconfig/wachuspi.pc

.PHONY: lib lib-unproved lib-check lib-install lib-uninstall

# Proves the crate wachuspi and all below it, and makes the libraries and build/include/wachuspi.h.
lib: needs-rt
	tools/proofs/libraries wachuspi
	tools/library build

# The same without a proof, into build/unproved.
lib-unproved: needs-rt
	tools/library unproved

# Tries the library: C under valgrind, Rust, Python, and by turns with LevelDB.
lib-check: needs-rt
	if [ ! -e build/libwachuspi.a ]; then tools/library unproved && tools/library check unproved; \
	  else tools/library check; fi

build/libwachuspi.a:
	$(MAKE) --no-print-directory lib

lib-install: $(LIBRARY)/libwachuspi.a
	for it in $(LIBRARY_FILES); do \
	  install -D -m 644 "$${it%%:*}" '$(BELOW)'/"$${it#*:}" || exit 1; \
	done
	ln -sf libwachuspi.so.1 '$(BELOW)/$(LIBDIR)/libwachuspi.so'
	mkdir -p '$(BELOW)/$(LIBDIR)/pkgconfig'
	sed -e 's|@PREFIX@|$(PREFIX)|' -e 's|@LIBDIR@|$(LIBDIR)|' -e 's|@VERSION@|$(LIBRARY_VERSION)|' \
	  packaging/wachuspi.pc.in > '$(BELOW)/$(LIBDIR)/pkgconfig/wachuspi.pc'
	for it in $(LIBRARY_PLACES); do echo 'installed $(BELOW)'/"$$it"; done

lib-uninstall:
	for it in $(LIBRARY_PLACES); do \
	  if [ -e '$(BELOW)'/"$$it" ] || [ -L '$(BELOW)'/"$$it" ]; then \
	    rm '$(BELOW)'/"$$it" && echo 'removed $(BELOW)'/"$$it" || exit 1; \
	  fi; \
	done
