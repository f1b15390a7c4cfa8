# Installs what is built, or makes a release of it. What is there is taken as it stands; what is not is proved and built first,
# which from nothing takes half an hour and more.
#
#   make                                  the program, the library for C and the wheel
#   make install [PREFIX=..] [DESTDIR=..]
#   make release [OPTIONS=..]             release/: archive, packages of Debian, wheel, sdist, image; packaging/release tells more
#   make release-check [OPTIONS=..]       does with them what a newcomer does, in fresh systems; as root
#   make uninstall [PREFIX=..] [DESTDIR=..]
#   make java                             java/out/bulkhead-hystrix-VERSION.jar, with the jars of sources and javadoc, and a pom

PREFIX ?= /usr/local
to = $(DESTDIR)$(PREFIX)
VERSION := $(shell sed -n 's/^const VERSION: &str = "\([0-9.]*\)\\n.*/\1/p' crates/bh_arguments/src/commands.rt)
INTERFACE := $(shell sed -n 's/^\#define BULKHEAD_VERSION \([0-9]*\)u$$/\1/p' include/bulkhead.h)

program = crates/bulkhead/out/bulkhead
library = crates/bh_c/out/libbh_c.a
archive = bindings/out/libbulkhead.a
wheel = python/out/made

.PHONY: all tools install uninstall release release-check java
all: tools $(program) $(archive) $(wheel)

# What is wanted of Python is looked for before anything is proved.
tools:
	@python/build-wheel --check

$(program):
	cd crates/bulkhead && rt run -- --help

$(library):
	cd crates/bh_c && rt lib

$(archive): $(library) bindings/build.sh
	bindings/build.sh $(library)

$(wheel): $(archive) $(shell find python/src -name '*.py') python/build-wheel python/pyproject.toml
	python/build-wheel
	touch $@

java: $(library)
	java/build $(library)

install: all
	install -d $(to)/bin $(to)/include $(to)/lib/pkgconfig $(to)/share/man/man1 $(to)/share/bulkhead
	install -m 755 $(program) $(to)/bin
	install -m 644 include/bulkhead.h $(to)/include
	install -m 644 $(archive) $(to)/lib
	install -m 755 bindings/out/libbulkhead.so.$(INTERFACE) $(to)/lib
	ln -sf libbulkhead.so.$(INTERFACE) $(to)/lib/libbulkhead.so
	sed '/^#/d; s/@VERSION@/$(VERSION)/' bindings/bulkhead.pc >$(to)/lib/pkgconfig/bulkhead.pc
	chmod 644 $(to)/lib/pkgconfig/bulkhead.pc
	install -m 644 docs/bulkhead.1 $(to)/share/man/man1
	install -D -m 755 examples/serve/supervised.sh $(to)/lib/bulkhead/supervised.sh
	install -m 644 python/out/*.whl LICENSE $(to)/share/bulkhead
	rm -rf $(to)/share/bulkhead/examples
	cp -r examples $(to)/share/bulkhead/examples
	rm -r $(to)/share/bulkhead/examples/own $(to)/share/bulkhead/examples/java
	cp bindings/c/example.c bindings/c/slow.c python/examples/*.py $(to)/share/bulkhead/examples

uninstall:
	rm -f $(to)/bin/bulkhead $(to)/include/bulkhead.h $(to)/lib/libbulkhead.a $(to)/lib/libbulkhead.so*
	rm -f $(to)/lib/pkgconfig/bulkhead.pc $(to)/share/man/man1/bulkhead.1
	rm -rf $(to)/share/bulkhead $(to)/lib/bulkhead

release:
	packaging/release $(OPTIONS)

release-check:
	packaging/release-check $(OPTIONS)
