SOURCES := $(shell find crates -path '*/out' -prune -o -type f -print)

# The programs, proved and built, crates side by side.
programs: bin/jsonpath bin/jpq

bin/jsonpath bin/jpq &: $(SOURCES)
	tools/build_programs jsonpath jpq

# A first result without any proof: the books that cost less than 10.
demo:
	cd crates/jpq && rt try -- '$$..book[?@.price < 10].title' < ../../examples/bookstore.json

# The static library for programs in C, proved and built, and the toolchain's C library beside it.
bindings/lib/libjsonpath_c.a: $(SOURCES)
	tools/build_library
	mkdir -p bindings/lib
	cp "$$(dirname "$$(rt doc)")/c/liblibc_c.a" crates/jsonpath_c/out/libjsonpath_c.a bindings/lib/

.PHONY: programs demo bindings test-bindings sqlite fuzz fuzz-quick dist test-dist check test documents manual trusted \
    refused-memory install install-c clean

# The static library and what is made of it: the Rust crate, the programs in C, and the shared library.
bindings: bindings/lib/libjsonpath_c.a
	bindings/build

# The extension for SQLite alone.
sqlite: bindings/lib/libjsonpath_c.a
	bindings/sqlite/compile

# Tests the bindings, once they are built.
test-bindings:
	bindings/lacking
	$(MAKE) bindings
	bindings/test

# Packs what is built for those who have no toolchain: archives, a wheel, a crate and Debian packages, in dist/. GATE_LOG is a file
# that ends with the last line of the gate, which is packed too (tools/dist).
dist: bin/jsonpath bin/jpq bindings
	rm -rf dist
	tools/dist

# Packs into a folder of its own, and uses what is packed as someone does who has no toolchain. The programs may be those that the
# gate has built.
test-dist: bindings
	tools/test_dist

# Looks for inputs on which the calls of the library disagree, for FUZZ_SECONDS, or an hour. It needs clang with libFuzzer.
fuzz: bindings/lib/libjsonpath_c.a
	bindings/fuzz/run $(or $(FUZZ_SECONDS),3600)

# The same for five minutes, if FUZZ_SECONDS does not say otherwise. Where clang has no libFuzzer it is left out.
fuzz-quick: bindings/lib/libjsonpath_c.a
	if bindings/fuzz/is_there; then bindings/fuzz/run $(or $(FUZZ_SECONDS),300); else echo "fuzzing is left out"; fi

# Proves each crate, lowest first, over what earlier checks kept.
check:
	rt all check

# The whole gate, and all that .ci/run tests after it; made-up paths for five minutes, if FUZZ_SECONDS does not say otherwise.
test:
	FUZZ_SECONDS=$(or $(FUZZ_SECONDS),300) .ci/run

# Runs each command that the documents show, and looks up each of their snippets, files and links.
documents: bin/jsonpath bin/jpq
	tools/check_documents

# Writes the manual page and the completions of jpq anew, by its table of options.
manual:
	tools/manual --write

# Writes the lists of what must be believed anew.
trusted:
	tools/trusted --write

# Refuses each request for memory in turn, in tests that it proves and builds first, and prints what came of it.
refused-memory:
	tools/refuse_memory

# Puts the programs, their manual pages and README, and the completions of jpq below PREFIX. What is put in place is put below
# DESTDIR, as packages want it.
PREFIX ?= /usr/local
install: bin/jsonpath bin/jpq
	packaging/install '$(DESTDIR)' '$(PREFIX)' bin/jsonpath bin/jpq

# Puts the header, the archives, the shared library, jsonpath.pc and the extension for SQLite below PREFIX, and DESTDIR, in the
# same way; the libraries into its folder LIBDIR.
LIBDIR ?= lib
install-c: bindings
	bindings/install '$(DESTDIR)' '$(PREFIX)' '$(LIBDIR)'

# Removes the programs, the bindings, what is packed, and what checks kept.
clean:
	rm -rf bin dist bindings/lib bindings/rust/target bindings/c/build bindings/sqlite/build bindings/python/vozgumb/libjsonpath.so \
	    crates/*/out
