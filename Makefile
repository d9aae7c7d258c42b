# The command `shim` and the library's files for a system:
#   make            the command, for this machine, from the archive
#   make check      its tests, by the model; needs cargo and python3
#   make install    the command, its manual page, the archive, the header and the pkg-config file, below DESTDIR and PREFIX
#   make uninstall  takes these away again
#   make clean      takes away what make made; proofs and archives stay
# For another processor: make PROCESSOR=aarch64 CC=aarch64-linux-gnu-gcc LDFLAGS=-static (and for check EMULATOR=qemu-aarch64).
# The archive is made where there is none of the crates as they are: that proves the library, which takes some minutes and
# the Rattle toolchain. ARCHIVE names another one, which is taken as it is.

# Without this make looks for a rule for each file of the crates, which takes a second.
MAKEFLAGS += -r
MACHINE != uname -m
PROCESSOR ?= $(MACHINE)
OWN_ARCHIVE = target/archive/$(PROCESSOR)/libshim.a
ARCHIVE ?= $(OWN_ARCHIVE)
EMULATOR ?=

CFLAGS ?= -O2 -g
INSTALL ?= install
PREFIX ?= /usr/local
BINDIR ?= $(PREFIX)/bin
LIBDIR ?= $(PREFIX)/lib
INCLUDEDIR ?= $(PREFIX)/include
MANDIR ?= $(PREFIX)/share/man

OUT = target/command/$(PROCESSOR)
SOURCES = host/shim.c host/command/*.c
HEADERS = include/shim.h host/command/*.h
# Folders count too, so that a file that is gone is noticed; but not crates/NAME itself, where rt keeps its work.
CRATES != find crates/*/src crates/*/specs crates/*/proofs crates.txt -name '.*' -prune -o -print
VERSION != sed -n 's/^.define SHIM_VERSION "\(.*\)"$$/\1/p' include/shim.h
MODEL = host/model/target/release/shim-model

all: $(OUT)/shim $(OUT)/shim.1

# Linked under another name, so that no one runs half a command.
$(OUT)/shim: $(SOURCES) $(HEADERS) $(ARCHIVE) $(OUT)/archive
	$(CC) -std=c99 -Wall -Wextra -pedantic -Iinclude $(CPPFLAGS) $(CFLAGS) $(LDFLAGS) $(SOURCES) $(ARCHIVE) $(LDLIBS) -o $@.new
	mv $@.new $@

$(OUT)/shim.1: docs/shim.1 include/shim.h
	mkdir -p $(OUT)
	sed 's/@VERSION@/$(VERSION)/' docs/shim.1 >$@

$(OWN_ARCHIVE): $(CRATES) tools/archive
	tools/archive $(PROCESSOR)

# Which archive is in the command, so that it is made anew for another one, however old that is.
NAMED != cat $(OUT)/archive 2>/dev/null || true
ifneq ($(NAMED),$(ARCHIVE))
$(OUT)/archive: always
endif
$(OUT)/archive:
	@mkdir -p $(OUT)
	@echo '$(ARCHIVE)' >$@

check: $(OUT)/shim
	cd host/model && cargo build --release --offline --quiet
	host/command-tests $(MODEL) -- $(EMULATOR) $(OUT)/shim

# Straight to its place, so that who installs leaves nothing of his own here.
install: all
	$(INSTALL) -d "$(DESTDIR)$(BINDIR)" "$(DESTDIR)$(LIBDIR)/pkgconfig" "$(DESTDIR)$(INCLUDEDIR)" "$(DESTDIR)$(MANDIR)/man1"
	$(INSTALL) -m 755 $(OUT)/shim "$(DESTDIR)$(BINDIR)/shim"
	$(INSTALL) -m 644 $(ARCHIVE) "$(DESTDIR)$(LIBDIR)/libshim.a"
	$(INSTALL) -m 644 include/shim.h "$(DESTDIR)$(INCLUDEDIR)/shim.h"
	$(INSTALL) -m 644 $(OUT)/shim.1 "$(DESTDIR)$(MANDIR)/man1/shim.1"
	sed -e 's|@PREFIX@|$(PREFIX)|' -e 's|@LIBDIR@|$(LIBDIR)|' -e 's|@INCLUDEDIR@|$(INCLUDEDIR)|' \
		-e 's/@VERSION@/$(VERSION)/' host/shim.pc.in >"$(DESTDIR)$(LIBDIR)/pkgconfig/shim.pc"
	chmod 644 "$(DESTDIR)$(LIBDIR)/pkgconfig/shim.pc"

uninstall:
	rm -f "$(DESTDIR)$(BINDIR)/shim" "$(DESTDIR)$(LIBDIR)/libshim.a" "$(DESTDIR)$(INCLUDEDIR)/shim.h" \
		"$(DESTDIR)$(MANDIR)/man1/shim.1" "$(DESTDIR)$(LIBDIR)/pkgconfig/shim.pc"

clean:
	rm -rf target/command

always:

.DELETE_ON_ERROR:
.PHONY: all check install uninstall clean always
