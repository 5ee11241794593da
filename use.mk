# The library for C programs, the helpers beside it, and the programs that use them. It is read in its own folder.
#
#: make lib         prove the library; write its archive and the helpers'     6 minutes
#: make install     put headers, archives and pkg-config files in PREFIX      a second (*)
#: make uninstall   remove what install has put there                         a second
#: make examples    build target/examples/lister and target/examples/office   3 seconds (*)
#: make bench       count the calls' instructions, beside plain C's           45 seconds (*)
#: make clean       remove target/, with all that was proved and built        a second
#: make help        show this list                                            a second
#:
#: Times are for two cores. (*) If the library is not yet proved, make lib's time is added.
#:
#: PREFIX is the folder to install in, /usr/local unless it is named. DESTDIR is put before it, for a
#: tree that is moved to its place later. ROZHINAL_LIB_DIR names the folder of a library's archive that
#: stands elsewhere. CC and CFLAGS are for the helpers and the examples; after a change of these, make
#: clean, or remove target/helpers and target/examples.

.DEFAULT_GOAL := help
.PHONY: lib install uninstall examples bench clean help

ifeq ($(wildcard include/rozhinal.h),)
$(error make is run in the folder of use.mk)
endif

CFLAGS ?= -O2
PREFIX ?= /usr/local
ROZHINAL_LIB_DIR ?= target/staticlib
EXAMPLES_DIR ?= target/examples
HELPERS_DIR ?= target/helpers

ROZHINAL_VERSION := $(shell sed -n 's/^.define ROZHINAL_VERSION "\(.*\)"/\1/p' include/rozhinal.h)
ROZHINAL_ARCHIVE := $(ROZHINAL_LIB_DIR)/librozhinal.a
HELPERS_ARCHIVE := $(HELPERS_DIR)/librozhinal_helpers.a
HELPERS_OBJECTS := $(patsubst helpers/%.c,$(HELPERS_DIR)/%.o,$(wildcard helpers/*.c))
HEADERS := include/rozhinal.h include/rozhinal_helpers.h

EXAMPLE_FLAGS := -std=c11 -D_POSIX_C_SOURCE=200809L -Wall -Wextra -Iinclude

help:
	@sed -n 's/^#: \{0,1\}//p' $(MAKEFILE_LIST)

# Only target/ and the crates' out/ in this folder. A link of that name goes, and what it leads to stays.
clean:
	rm -rf target crates/*/out

# ---- The archives ----

define PROVE_LIBRARY
tools/build library
endef

lib: $(HELPERS_ARCHIVE)
	$(PROVE_LIBRARY)

# Only the archive in target/ is made here. It is proved and written anew when a source has changed.
target/staticlib/librozhinal.a: crates.txt $(shell find crates -name '*.rt' -o -name '*.antt')
	$(PROVE_LIBRARY)

$(HELPERS_DIR)/%.o: helpers/%.c helpers/layout.h $(HEADERS)
	mkdir -p $(HELPERS_DIR)
	$(CC) -std=c11 -Wall -Wextra -Iinclude -fPIC $(CFLAGS) -c -o $@ $<

# Made anew, so that it has no object of a source that is gone.
$(HELPERS_ARCHIVE): $(HELPERS_OBJECTS)
	rm -f $@
	$(AR) rcs $@ $^

# ---- Installing ----

# The pkg-config files name the folder for programs that are built anywhere. What it says is read by the shell, so that
# it has no blanks, and no sign that would be escaped there. DESTDIR may have others.
install uninstall: export INTO = $(DESTDIR)$(abspath $(PREFIX))
export DESTDIR

# Both as it is given and in full: a folder that is named from here has this folder's name before it.
define TEST_PREFIX
@LC_ALL=C; for name in '$(subst ','\'',$(PREFIX))' '$(subst ','\'',$(abspath $(PREFIX)))'; do \
    case $$name in \
    '' | *[!A-Za-z0-9/._+@,=-]*) \
        echo 'PREFIX must be a folder named with letters, digits and / . _ + @ , = - alone: pkg-config' >&2; \
        echo 'cannot tell of another. $$HOME stands for ~.' >&2; \
        exit 2 ;; \
    esac; \
done
@if [ "$$INTO" -ef . ]; then echo 'PREFIX must be a folder other than this one, which has the sources' >&2; exit 2; fi
endef

PKG_CONFIG_FILE = sed -e 's|@VERSION@|$(ROZHINAL_VERSION)|' -e 's|@PREFIX@|$(abspath $(PREFIX))|'

install: $(ROZHINAL_ARCHIVE) $(HELPERS_ARCHIVE)
	$(TEST_PREFIX)
	install -d "$$INTO/include" "$$INTO/lib/pkgconfig"
	install -m 644 $(HEADERS) "$$INTO/include"
	install -m 644 $(ROZHINAL_ARCHIVE) $(HELPERS_ARCHIVE) "$$INTO/lib"
	$(PKG_CONFIG_FILE) rozhinal.pc.in >"$$INTO/lib/pkgconfig/rozhinal.pc"
	$(PKG_CONFIG_FILE) rozhinal-helpers.pc.in >"$$INTO/lib/pkgconfig/rozhinal-helpers.pc"
	chmod 644 "$$INTO/lib/pkgconfig/rozhinal.pc" "$$INTO/lib/pkgconfig/rozhinal-helpers.pc"

# What install puts under the prefix.
INSTALLED := $(HEADERS) lib/librozhinal.a lib/librozhinal_helpers.a lib/pkgconfig/rozhinal.pc \
    lib/pkgconfig/rozhinal-helpers.pc

# Folders go too if nothing is left in them: these, the prefix and, within DESTDIR, those above it.
uninstall:
	$(TEST_PREFIX)
	@for file in $(INSTALLED); do rm -fv "$$INTO/$$file" || exit 1; done
	@rmdir "$$INTO/include" "$$INTO/lib/pkgconfig" "$$INTO/lib" 2>/dev/null || :
	@{ $(if $(DESTDIR),CDPATH= cd "$$DESTDIR" && rmdir -p .$(abspath $(PREFIX)),rmdir "$$INTO"); } 2>/dev/null || :

# ---- The programs ----

examples: $(EXAMPLES_DIR)/lister $(EXAMPLES_DIR)/office

# Each program: its sources, then the archives.
define BUILD_EXAMPLE
mkdir -p $(EXAMPLES_DIR)
$(CC) $(EXAMPLE_FLAGS) $(CFLAGS) -o $@ $(filter %.c,$^) $(HELPERS_ARCHIVE) $(ROZHINAL_ARCHIVE)
endef

$(EXAMPLES_DIR)/lister: $(wildcard examples/lister/*.c) examples/file.c $(wildcard examples/lister/*.h) examples/file.h $(HEADERS) $(HELPERS_ARCHIVE) $(ROZHINAL_ARCHIVE)
	$(BUILD_EXAMPLE)

$(EXAMPLES_DIR)/office: $(wildcard examples/office/*.c) examples/file.c $(wildcard examples/office/*.h) examples/file.h $(HEADERS) $(HELPERS_ARCHIVE) $(ROZHINAL_ARCHIVE)
	$(BUILD_EXAMPLE)

bench: $(ROZHINAL_ARCHIVE)
	ROZHINAL_LIB_DIR=$(ROZHINAL_LIB_DIR) bench/run
