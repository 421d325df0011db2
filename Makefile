# make                  proves and builds the label program and the library, where anything changed
# make install          installs them: make install PREFIX=$HOME/.local
# make install-shared   links a shared library from the static one, and installs that
# make uninstall        removes the files of these two; give it the same variables
# make test             runs all tests
#
# PREFIX is /usr/local where it is not given. libdir and includedir are folders below it, or others
# (libdir=/usr/local/lib64). DESTDIR is put before every path, and into no file.
PREFIX ?= /usr/local
prefix = $(PREFIX)
libdir = $(prefix)/lib
includedir = $(prefix)/include
VERSION := $(shell cat VERSION)

# The paths, absolute whatever was given, with ~ for the home folder where the shell has left it.
absolute = $(abspath $(patsubst ~,$(HOME),$(patsubst ~/%,$(HOME)/%,$(1))))
stage := $(call absolute,$(DESTDIR))
top := $(call absolute,$(prefix))
lib := $(call absolute,$(libdir))
inc := $(call absolute,$(includedir))
ifneq ($(words x$(stage)x$(top)x$(lib)x$(inc)x),1)
$(error PREFIX, DESTDIR, libdir and includedir may have no spaces, which pkg-config cannot pass on)
endif

bin := $(stage)$(top)/bin
own := $(stage)$(top)/libexec/slatmonief
doc := $(stage)$(top)/share/doc/slatmonief
static := $(stage)$(lib)/libslatmonief.a
shared := $(stage)$(lib)/libslatmonief.so
header := $(stage)$(inc)/slatmonief.h
config := $(stage)$(lib)/pkgconfig/slatmonief.pc

define SLATMONIEF_PC
prefix=$(top)
libdir=$(patsubst $(top)/%,$${prefix}/%,$(lib))
includedir=$(patsubst $(top)/%,$${prefix}/%,$(inc))

Name: slatmonief
Description: Code 128 and EAN-13 rows, written and read, every function proved
Version: $(VERSION)
Cflags: -I$${includedir}
Libs: -L$${libdir} -lslatmonief
endef
export SLATMONIEF_PC

all:
	bin/build

test:
	bin/test

install: all
	install -d '$(bin)' '$(own)' '$(doc)' '$(dir $(header))' '$(dir $(config))'
	install -m 755 bin/label '$(bin)/slatmonief-label'
	install -m 755 bin/text2label '$(bin)/slatmonief-text2label'
	install -m 755 target/bin/label '$(own)/label'
	install -m 644 VERSION '$(own)/VERSION'
	install -m 644 target/staticlib/libslatmonief.a '$(static)'
	install -m 644 include/slatmonief.h '$(header)'
	printf '%s\n' "$$SLATMONIEF_PC" > '$(config)'
	chmod 644 '$(config)'
	install -m 644 README.md LICENSE-MIT.txt LICENSE-APACHE.txt NOTICE '$(doc)'

install-shared: all
	install -d '$(dir $(shared))'
	$(CC) -shared $(LDFLAGS) -Wl,-soname,libslatmonief.so.1 -o '$(shared).1' \
	  -Wl,--whole-archive target/staticlib/libslatmonief.a -Wl,--no-whole-archive
	chmod 755 '$(shared).1'
	ln -sf libslatmonief.so.1 '$(shared)'

uninstall:
	rm -f '$(bin)/slatmonief-label' '$(bin)/slatmonief-text2label' '$(own)/label' '$(own)/VERSION'
	rm -f '$(static)' '$(shared)' '$(shared).1' '$(header)' '$(config)'
	rm -f '$(doc)/README.md' '$(doc)/LICENSE-MIT.txt' '$(doc)/LICENSE-APACHE.txt' '$(doc)/NOTICE'
	for own in '$(own)' '$(doc)'; do \
	  [ ! -d "$$own" ] || rmdir --ignore-fail-on-non-empty "$$own"; done

.PHONY: all test install install-shared uninstall
