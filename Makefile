# The reader as a library for other programs.
#
#   make                        libyasgulet.so and libyasgulet.a, with l3.h and a pkg-config file, under target/hosts
#   make install PREFIX=/usr    puts them under a prefix (/usr/local); DESTDIR goes before it
#   make examples               the examples in C and Rust, with all warnings on
#   make account                the rain book of the sample in hosts/python/orchard, and its picture
#   make check                  the tests of all of it; the last line is 'N passed, M failed'
#
# CAPI is the proved archive, which `tools/staticlib` writes; another one may be named.
VERSION := $(shell cat hosts/VERSION)
MAJOR := $(firstword $(subst ., ,$(VERSION)))
NUMBER := $(shell IFS=. read a b c < hosts/VERSION; echo $$((a * 10000 + b * 100 + c)))
CAPI ?= target/staticlib/libcapi.a
BUILD ?= target/hosts
PREFIX ?= /usr/local
LIBDIR ?= $(PREFIX)/lib
INCLUDEDIR ?= $(PREFIX)/include
PYTHON ?= python3
RUSTC ?= rustc
WARNINGS = -std=c11 -Wall -Wextra -Wpedantic -Wconversion -Wsign-conversion -Wshadow -Wstrict-prototypes -Wmissing-prototypes -Werror
SECONDS_OF_FUZZ ?= 60

STATIC = $(BUILD)/libyasgulet.a $(BUILD)/l3.h $(BUILD)/l3_version.h

all: $(BUILD)/libyasgulet.so $(STATIC) $(BUILD)/yasgulet.pc

target/staticlib/libcapi.a:
	tools/staticlib

$(BUILD):
	mkdir -p $@

$(BUILD)/libyasgulet.a: $(CAPI) | $(BUILD)
	cp $< $@

# Nothing but the entries of l3.h is exported.
$(BUILD)/libyasgulet.so: $(CAPI) hosts/c/exports | $(BUILD)
	$(CC) $(LDFLAGS) -shared -o $@ -Wl,-soname,libyasgulet.so.$(MAJOR) -Wl,--version-script,hosts/c/exports -Wl,-z,defs \
	    -Wl,--whole-archive $(CAPI) -Wl,--no-whole-archive -lm

$(BUILD)/l3.h: crates/capi/l3.h | $(BUILD)
	cp $< $@

$(BUILD)/l3_version.h: hosts/VERSION | $(BUILD)
	printf '%s\n' '/* The version that l3_version returns: major * 10000 + minor * 100 + patch. */' '#ifndef L3_VERSION' \
	    '#define L3_VERSION $(NUMBER)' '#endif' '#define L3_VERSION_TEXT "$(VERSION)"' > $@

$(BUILD)/yasgulet.pc: hosts/yasgulet.pc.in hosts/VERSION | $(BUILD)
	sed -e 's|@PREFIX@|$(PREFIX)|' -e 's|@LIBDIR@|$(LIBDIR)|' -e 's|@INCLUDEDIR@|$(INCLUDEDIR)|' -e 's|@VERSION@|$(VERSION)|' $< > $@

install: all
	sed -e 's|@PREFIX@|$(PREFIX)|' -e 's|@LIBDIR@|$(LIBDIR)|' -e 's|@INCLUDEDIR@|$(INCLUDEDIR)|' -e 's|@VERSION@|$(VERSION)|' \
	    hosts/yasgulet.pc.in > $(BUILD)/yasgulet.pc
	install -d $(DESTDIR)$(LIBDIR)/pkgconfig $(DESTDIR)$(INCLUDEDIR)
	install -m 644 $(BUILD)/libyasgulet.a $(DESTDIR)$(LIBDIR)
	install -m 755 $(BUILD)/libyasgulet.so $(DESTDIR)$(LIBDIR)/libyasgulet.so.$(VERSION)
	ln -sf libyasgulet.so.$(VERSION) $(DESTDIR)$(LIBDIR)/libyasgulet.so.$(MAJOR)
	ln -sf libyasgulet.so.$(MAJOR) $(DESTDIR)$(LIBDIR)/libyasgulet.so
	install -m 644 $(BUILD)/l3.h $(BUILD)/l3_version.h $(DESTDIR)$(INCLUDEDIR)
	install -m 644 $(BUILD)/yasgulet.pc $(DESTDIR)$(LIBDIR)/pkgconfig

$(BUILD)/example: hosts/c/example.c $(STATIC)
	$(CC) -O2 $(WARNINGS) -I$(BUILD) -o $@ $< $(BUILD)/libyasgulet.a -lm

$(BUILD)/example-rust: hosts/rust/example.rs $(STATIC)
	$(RUSTC) --edition 2021 -O -D warnings -o $@ $< -L native=$(BUILD) -l static=yasgulet -l m

$(BUILD)/fuzz: hosts/c/fuzz.c $(STATIC)
	$(CC) -O2 -g $(WARNINGS) -D_GNU_SOURCE $(CFLAGS) -pthread -I$(BUILD) -o $@ $< $(BUILD)/libyasgulet.a -lm

examples: $(BUILD)/example
	if command -v $(RUSTC) > /dev/null; then $(MAKE) $(BUILD)/example-rust; fi

fuzz: $(BUILD)/fuzz

BOOK = PYTHONPATH=hosts/python YASGULET_LIBRARY=$(BUILD)/libyasgulet.so $(PYTHON) -m yasgulet
ORCHARD = hosts/python/orchard
RECEPTIONS = $(ORCHARD)/DPRLOT $(ORCHARD)/DPRLOT.second

account: all
	$(BOOK) account $(ORCHARD)/block.plan $(ORCHARD)/tariff $(RECEPTIONS)
	$(BOOK) merge $(RECEPTIONS) -o $(BUILD)/orchard.png --plan $(ORCHARD)/block.plan

check: $(CAPI)
	BUILD=$(BUILD)/check CAPI=$(CAPI) SECONDS_OF_FUZZ=$(SECONDS_OF_FUZZ) PYTHON=$(PYTHON) hosts/check

clean:
	rm -rf $(BUILD)

.PHONY: all install examples fuzz account check clean
