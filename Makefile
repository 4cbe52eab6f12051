# `make help` says what there is. What is made stands under build/ (ours) and crates/*/out/ (rt's).
LIB := build/lib
VERSION := $(shell sed -n 's/^.define AV1TS_VERSION //p' include/av1ts.h)
SHARED := libav1ts.so.0.$(VERSION)
CFLAGS ?= -O2 -Wall -Wextra
PREFIX ?= /usr/local
DESTDIR ?=
INSTALLED := $(DESTDIR)$(PREFIX)
EXAMPLES := $(patsubst examples/%.c,build/examples/%,$(wildcard examples/*.c))

.DEFAULT_GOAL := help
.PHONY: help run demo lib tool install uninstall dist quick test soak interop lesson bench bench-instructions fmt clean

help:
	@echo "make run              prove every crate, make the library, show what it does; what the prover says goes to build/log"
	@echo "make demo [FILE=f.ts] show what it does, with no proving where the library is made; with FILE, the verdict on that file alone"
	@echo "make lib              build/lib: libav1ts.a, libav1ts.so, av1ts.h"
	@echo "make tool             build/cargo/release/av1ts, the command that says what is wrong with a .ts file"
	@echo "make install          the library, its header, a pkg-config file, the tool and its man page to PREFIX (/usr/local), below DESTDIR; make uninstall removes them"
	@echo "make dist             an archive of the library for those who have no kit"
	@echo "make quick CRATE=unit one crate: its proof, the edits that must fail, and the tests that concern it"
	@echo "make test             the gate: everything from nothing, with all edits and tests, which takes long; its last line is 'N passed, M failed'"
	@echo "make soak [SECONDS=n] hostile calls over guard pages, for so long (600)"
	@echo "make interop          real AV1 by each encoder through library and tool, beside other programs; installs them from Debian's packages"
	@echo "make lesson [NAME=n]  lists the lessons of docs/CLASSROOM.md, or shows one: an error in a copy, and the fact that the prover refuses"
	@echo "make bench            speed beside plain C, libavcodec's way, a packet loop, SSE2 by hand and memcpy, as one table, and how cost grows"
	@echo "make bench-instructions  instructions a byte of the same functions, by valgrind"
	@echo "make fmt              lay out all files"
	@echo "make clean            remove build/, target/ and crates/*/out/, what is proved too"

run:
	@tools/need rt gcc make
	@echo "Proving the library and its programs. The first time takes some minutes; build/log/prove.log has what the prover says."
	@tools/prove
	@tools/staticlib av1ts proved
	@$(MAKE) --no-print-directory files demo

demo: $(LIB)/libav1ts.a $(EXAMPLES)
	@tools/demo $(FILE)

lib:
	@tools/need rt gcc make
	@tools/staticlib av1ts
	@$(MAKE) --no-print-directory files

# The library is there, whether or not a crate has changed since.
$(LIB)/libav1ts.a:
	@$(MAKE) --no-print-directory lib

# build/lib, from the archive that is made: the shared library asks of a program that it was built for this version of the header.
.PHONY: files
files: $(LIB)/libav1ts.so
	@:

$(LIB)/libav1ts.so: build/staticlib/libav1ts.a include/av1ts.h
	@mkdir -p $(LIB)
	@rm -f $(LIB)/libav1ts.so*
	@cp build/staticlib/libav1ts.a include/av1ts.h $(LIB)/
	@echo 'AV1TS_$(VERSION) { global: av1ts_*; local: *; };' >$(LIB)/versions
	@gcc -shared -Wl,-soname,libav1ts.so.0 -Wl,--version-script,$(LIB)/versions -o $(LIB)/$(SHARED) \
	    -Wl,--whole-archive $(LIB)/libav1ts.a -Wl,--no-whole-archive
	@rm -f $(LIB)/versions
	@ln -sf $(SHARED) $(LIB)/libav1ts.so.0
	@ln -sf libav1ts.so.0 $(LIB)/libav1ts.so

tool: $(LIB)/libav1ts.a
	@tools/need cargo rustc
	cargo build --quiet --release --package av1ts-tool

interop: tool
	@tools/need python3
	@tests/interop/run

lesson:
	@tools/need python3
	@tools/lesson $(NAME)

install: $(LIB)/libav1ts.a tool
	@mkdir -p $(INSTALLED)/include $(INSTALLED)/lib/pkgconfig $(INSTALLED)/bin $(INSTALLED)/share/man/man1
	install -m 755 build/cargo/release/av1ts $(INSTALLED)/bin/
	install -m 644 rust/tool/av1ts.1 $(INSTALLED)/share/man/man1/
	install -m 644 $(LIB)/av1ts.h $(INSTALLED)/include/
	install -m 644 $(LIB)/libav1ts.a $(INSTALLED)/lib/
	install -m 755 $(LIB)/$(SHARED) $(INSTALLED)/lib/
	ln -sf $(SHARED) $(INSTALLED)/lib/libav1ts.so.0
	ln -sf libav1ts.so.0 $(INSTALLED)/lib/libav1ts.so
	sed -e 's|@PREFIX@|$(PREFIX)|' -e 's|@VERSION@|0.$(VERSION)|' packaging/av1ts.pc.in >$(INSTALLED)/lib/pkgconfig/av1ts.pc

uninstall:
	rm -f $(INSTALLED)/include/av1ts.h $(INSTALLED)/lib/libav1ts.a $(INSTALLED)/lib/libav1ts.so $(INSTALLED)/lib/libav1ts.so.0 \
	    $(INSTALLED)/lib/$(SHARED) $(INSTALLED)/lib/pkgconfig/av1ts.pc $(INSTALLED)/bin/av1ts $(INSTALLED)/share/man/man1/av1ts.1

dist: lib
	@tools/dist 0.$(VERSION)

build/examples/%: examples/%.c examples/hex.h examples/words.h $(LIB)/libav1ts.a
	@mkdir -p build/examples
	@gcc $(CFLAGS) -I $(LIB) $< $(LIB)/libav1ts.a -o $@ || { echo "If build/lib is older than the sources: make lib"; false; }

quick:
	@tools/need rt gcc g++ make cargo rustc python3
	@tools/quick $(CRATE)

test:
	@.ci/run

SECONDS ?= 600
soak: $(LIB)/libav1ts.a
	@tools/need gcc
	@tests/boundary/run $(SECONDS)

# libmeasured.a has inner functions with C names, for these measurements alone
build/bench/libmeasured.a: lib
	@tools/need cargo rustc
	@tools/staticlib measured
	@mkdir -p build/bench
	@cp build/staticlib/libmeasured.a $@

bench: build/bench/libmeasured.a
	cargo run --quiet --release --package bench

bench-instructions:
	@tools/need valgrind python3
	@$(MAKE) --no-print-directory build/bench/libmeasured.a
	cargo build --quiet --release --package bench
	@bench/instructions

fmt:
	@tools/need rt cargo
	for crate in crates/*; do (cd $$crate && rt fmt) || exit 1; done
	cargo fmt

clean:
	rm -rf build target crates/*/out
