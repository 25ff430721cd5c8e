# The C library as a package.
#
#   make             builds the archive, by `rt` of the Rattle toolchain
#   make test        runs every test
#   make install     installs the archive, the header and fahireky.pc under PREFIX (under DESTDIR, if set)
#   make uninstall   removes them
#   make tag         tags the version of the file VERSION, after comparing it with header, crate and changelog
#
# There is no `make clean`: the folders out/ of the crates have the prover's results, and these take long to compute.

PREFIX ?= /usr/local
RT ?= rt

archive := target/staticlib/libfahireky.a
version := $(shell cat VERSION)
lib = $(DESTDIR)$(PREFIX)/lib
include = $(DESTDIR)$(PREFIX)/include

# The archive is built again only if one of these is newer.
sources := crates.txt $(shell find crates -type f -not -path '*/must-fail*' -not -path 'crates/*/out/*')

.PHONY: all test install uninstall tag

all: $(archive)

# `rt lib` leaves the archive in the folder of the crate that exports the calls, under that crate's name.
$(archive): $(sources)
	cd crates/fahireky_c && $(RT) lib
	install -D -m 644 crates/fahireky_c/out/libfahireky_c.a $@

test:
	bash tests/run

install: $(archive)
	@case "$(PREFIX)" in /*) ;; *) echo "PREFIX must be an absolute path, not '$(PREFIX)'" >&2; exit 1 ;; esac
	install -d "$(lib)/pkgconfig" "$(include)"
	install -m 644 $(archive) "$(lib)/libfahireky.a"
	install -m 644 bindings/fahireky.h "$(include)/fahireky.h"
	sed -e 's|@PREFIX@|$(PREFIX)|' -e 's|@VERSION@|$(version)|' bindings/fahireky.pc.in >"$(lib)/pkgconfig/fahireky.pc"
	chmod 644 "$(lib)/pkgconfig/fahireky.pc"

uninstall:
	rm -f "$(lib)/libfahireky.a" "$(lib)/pkgconfig/fahireky.pc" "$(include)/fahireky.h"

tag:
	python3 tests/version.py
	git tag -a "v$(version)" -m "Fahireky $(version)"
