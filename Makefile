# Everything by one word. The toolchain (rt) proves and compiles the library; the rest is gcc, cargo and the scripts named here.
#
#     make            the archive: target/staticlib/libledgerlark.a
#     make check      the tests in C, C++ and Rust, and those of the program and its script
#     make install    archive, header, pkg-config file, LICENSE and NOTICE, to DESTDIR and PREFIX
#     make uninstall  takes these five away again
#     make bench      the measurements
#     make oracle     the runs against the Rust crate
#     make clean      all that was built goes, the proofs' results too
#
# LARK_ARCHIVE names an archive that is there already; then none is built.

PREFIX ?= /usr/local
DESTDIR ?=
LIBDIR ?= $(PREFIX)/lib
INCLUDEDIR ?= $(PREFIX)/include
DOCDIR ?= $(PREFIX)/share/doc/ledgerlark

VERSION := $(shell sed -n 's/^.define LARK_VERSION "\(.*\)"$$/\1/p' include/ledgerlark.h)

ifdef LARK_ARCHIVE
ARCHIVE := $(LARK_ARCHIVE)
else
ARCHIVE := target/staticlib/libledgerlark.a
BUILT := $(ARCHIVE)
SOURCES := crates.txt $(shell find crates -name out -prune -o -name '*.rt' -print -o -name '*.antt' -print)

$(ARCHIVE): $(SOURCES)
	tools/archive
endif

.PHONY: all check install uninstall bench oracle clean
.DEFAULT_GOAL := all

all: $(BUILT)

check: $(BUILT)
	LARK_ARCHIVE='$(ARCHIVE)' tests/run
	tests/script
	tests/lark

# What stands for itself in the second part of sed's `s|..|..|`.
for_sed = $(subst |,\|,$(subst &,\&,$(subst \,\\,$1)))

install: $(BUILT)
	install -d '$(DESTDIR)$(LIBDIR)/pkgconfig' '$(DESTDIR)$(INCLUDEDIR)' '$(DESTDIR)$(DOCDIR)'
	install -m 644 '$(ARCHIVE)' '$(DESTDIR)$(LIBDIR)/libledgerlark.a'
	install -m 644 include/ledgerlark.h '$(DESTDIR)$(INCLUDEDIR)/ledgerlark.h'
	sed -e 's|@PREFIX@|$(call for_sed,$(PREFIX))|' -e 's|@LIBDIR@|$(call for_sed,$(LIBDIR))|' -e 's|@INCLUDEDIR@|$(call for_sed,$(INCLUDEDIR))|' \
	    -e 's|@VERSION@|$(VERSION)|' ledgerlark.pc.in > '$(DESTDIR)$(LIBDIR)/pkgconfig/ledgerlark.pc'
	chmod 644 '$(DESTDIR)$(LIBDIR)/pkgconfig/ledgerlark.pc'
	install -m 644 LICENSE NOTICE '$(DESTDIR)$(DOCDIR)'

# Folders stay, since others may use them, but for the one that is ours alone: that goes if it is empty.
uninstall:
	rm -f '$(DESTDIR)$(LIBDIR)/libledgerlark.a' '$(DESTDIR)$(INCLUDEDIR)/ledgerlark.h' '$(DESTDIR)$(LIBDIR)/pkgconfig/ledgerlark.pc' \
	    '$(DESTDIR)$(DOCDIR)/LICENSE' '$(DESTDIR)$(DOCDIR)/NOTICE'
	@rmdir '$(DESTDIR)$(DOCDIR)' 2>/dev/null || true

bench: $(BUILT)
	LARK_ARCHIVE='$(ARCHIVE)' bench/run

oracle: $(BUILT)
	LARK_ARCHIVE="$$(realpath '$(ARCHIVE)')" oracle/run

clean:
	rm -rf target crates/*/out bindings/rust/target oracle/target bench/driver/target
