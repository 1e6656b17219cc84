# make            the static library, target/staticlib/libclevisroot.a
# make install    headers, archive, pkg-config and CMake files below PREFIX; DESTDIR goes before it
# make uninstall  takes them away
# make check      the tests in C and the examples, under the sanitizers
#
# CLEVISROOT_ARCHIVE=FILE uses an archive that was built elsewhere; then nothing is proved or compiled.

PREFIX ?= /usr/local
INCLUDEDIR ?= $(PREFIX)/include
LIBDIR ?= $(PREFIX)/lib

ifeq ($(origin CC),default)
CC := gcc
endif
ifeq ($(origin CXX),default)
CXX := g++
endif
WARNINGS := -Wall -Wextra -Wpedantic -Werror
SANITIZE ?= -fsanitize=address,undefined -fno-sanitize-recover=all
CFLAGS ?= -g -O1
CXXFLAGS ?= -g -O1

OWN := target/staticlib/libclevisroot.a
ARCHIVE := $(or $(CLEVISROOT_ARCHIVE),$(OWN))
SOURCES := crates.txt $(shell find crates -mindepth 2 \( -name must-fail -o -name out \) -prune -o -print)
HEADERS := include/clevisroot.h include/clevisroot_names.h
VERSION := $(shell sed -n 's/.*CLEVISROOT_VERSION_TEXT "\(.*\)"/\1/p' include/clevisroot.h)
BUILD := target/c
TESTS := calls mappers refusals null guarded threads tally clip_check quarter_turns
EXAMPLES := pair_report clip quarter

.PHONY: all install uninstall programs check
all: $(ARCHIVE)

# any x86-64 machine: without --cpu the code would need a newer one
$(OWN): $(SOURCES)
	@command -v rt >/dev/null || { echo "make: rt, which proves and compiles the library, is not in PATH."; \
	    echo "Install the Rattle kit (README.md, \"What you need\"), or set CLEVISROOT_ARCHIVE to a libclevisroot.a"; \
	    echo "that was built elsewhere."; exit 1; }
	cd crates/clevisroot && rt lib --cpu=x86-64
	install -D -m 644 crates/clevisroot/out/libclevisroot.a $@

# ---- installing

TO_INCLUDE = $(DESTDIR)$(abspath $(INCLUDEDIR))
TO_LIB = $(DESTDIR)$(abspath $(LIBDIR))
FILL = sed -e 's|@PREFIX@|$(abspath $(PREFIX))|' -e 's|@INCLUDEDIR@|$(abspath $(INCLUDEDIR))|' \
    -e 's|@LIBDIR@|$(abspath $(LIBDIR))|' -e 's|@VERSION@|$(VERSION)|'

install: $(ARCHIVE)
	install -d $(TO_INCLUDE) $(TO_LIB)/pkgconfig $(TO_LIB)/cmake/clevisroot
	install -m 644 $(HEADERS) $(TO_INCLUDE)
	install -m 644 $(ARCHIVE) $(TO_LIB)/libclevisroot.a
	$(FILL) packaging/clevisroot.pc.in > $(TO_LIB)/pkgconfig/clevisroot.pc
	$(FILL) packaging/clevisroot-config.cmake.in > $(TO_LIB)/cmake/clevisroot/clevisroot-config.cmake

uninstall:
	rm -f $(addprefix $(TO_INCLUDE)/,$(notdir $(HEADERS))) $(TO_LIB)/libclevisroot.a
	rm -f $(TO_LIB)/pkgconfig/clevisroot.pc $(TO_LIB)/cmake/clevisroot/clevisroot-config.cmake
	-rmdir $(TO_LIB)/cmake/clevisroot

# ---- testing; the archive itself is not instrumented, see tests/c/guarded.c

programs: $(TESTS:%=$(BUILD)/%) $(BUILD)/stack $(BUILD)/symbol-c $(BUILD)/symbol-cpp $(EXAMPLES:%=$(BUILD)/%)

check: programs
	@for test in $(TESTS) stack; do $(BUILD)/$$test || exit 1; done
	@for example in symbol-c symbol-cpp; do $(BUILD)/$$example | diff - tests/c/symbol.stdout || exit 1; done
	@for example in $(EXAMPLES); do $(BUILD)/$$example | diff - tests/c/$$example.stdout || exit 1; done

$(BUILD)/%: tests/c/%.c tests/c/test.h $(HEADERS) $(ARCHIVE)
	@mkdir -p $(@D)
	$(CC) -std=c11 $(WARNINGS) $(CFLAGS) $(SANITIZE) -Iinclude $< $(ARCHIVE) -pthread -o $@

# without sanitizers, which take stack of their own
$(BUILD)/stack: tests/c/stack.c tests/c/test.h $(HEADERS) $(ARCHIVE)
	@mkdir -p $(@D)
	$(CC) -std=c11 $(WARNINGS) $(CFLAGS) -Iinclude $< $(ARCHIVE) -pthread -o $@

$(BUILD)/symbol-c: examples/symbol.c $(HEADERS) $(ARCHIVE)
	@mkdir -p $(@D)
	$(CC) -std=c11 $(WARNINGS) $(CFLAGS) $(SANITIZE) -Iinclude $< $(ARCHIVE) -o $@

$(EXAMPLES:%=$(BUILD)/%): $(BUILD)/%: examples/%.c $(HEADERS) $(ARCHIVE)
	@mkdir -p $(@D)
	$(CC) -std=c11 $(WARNINGS) $(CFLAGS) $(SANITIZE) -Iinclude $< $(ARCHIVE) -o $@

$(BUILD)/symbol-cpp: examples/symbol.cpp $(HEADERS) $(ARCHIVE)
	@mkdir -p $(@D)
	$(CXX) -std=c++11 $(WARNINGS) $(CXXFLAGS) $(SANITIZE) -Iinclude $< $(ARCHIVE) -o $@
